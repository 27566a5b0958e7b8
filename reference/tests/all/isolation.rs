//! The isolation rule between two lines (document 02, request (g)): rows for its
//! condition, and the rule over random pairs of tables. Where two tables agree on
//! every member of the set for a domain, the domain sees the same of both runs, and
//! the set worked out on the second table is the same too.

use crate::support::{part, place, run_from, shown, table_with, Run};
use reference::example::{LIST_L, TABLE_T};
use reference::generate::{altered, list, redrawn_but_for, table, Rng};
use reference::table::domains;
use reference::words::hex;
use reference::{agree, check_table, cut, members, view, Call};

/// Whether table T and table T with one other word agree for a list and a domain.
fn agrees_with(place: usize, word: u32, list: &[u32], d: usize) -> bool {
    let other = table_with(&[(place, word)]);
    assert_eq!(check_table(&other), 0);
    assert_ne!(other, TABLE_T);
    agree(&TABLE_T, &other, &cut(list), d)
}

#[test]
fn the_set_over_the_whole_list_is_that_at_the_first_call() {
    let set = |list: &[u32], d| Vec::from_iter(members(&TABLE_T, &cut(list), d));
    assert_eq!(set(&LIST_L, 0), [0, 1]);
    assert_eq!(set(&LIST_L, 1), [0, 1]);
    assert_eq!(set(&LIST_L, 2), [0, 1, 2]);
    for d in 0..3 {
        assert_eq!(set(&[], d), [d]);
    }
}

#[test]
fn tables_agree_on_rights_of_and_on_members() {
    // In list L the members for domain 0 are 0 and 1, those for domain 2 are all.
    for holder in 0..3 {
        for target in 0..3 {
            let at = place::rights(holder, target);
            let word = TABLE_T[at] ^ 8;
            let outside = holder == 2 && target == 2;
            assert_eq!(agrees_with(at, word, &LIST_L, 0), outside);
            assert!(!agrees_with(at, word, &LIST_L, 2));
            // With no call the only member is the domain itself.
            let outside = holder != 0 && target != 0;
            assert_eq!(agrees_with(at, word, &[], 0), outside);
        }
    }
}

#[test]
fn tables_agree_on_queues_and_lost_counts_of_members() {
    // Endpoint 0 belongs to domain 1, endpoint 1 to domain 2.
    assert!(!agrees_with(place::LOST_0, 0x6000_0001, &LIST_L, 0));
    assert!(agrees_with(place::LOST_1, 0x6000_0001, &LIST_L, 0));
    assert!(!agrees_with(place::LOST_1, 0x6000_0001, &LIST_L, 2));
    assert!(!agrees_with(place::WAITING_0, 0x5000_0001, &LIST_L, 0));
    assert!(agrees_with(place::WAITING_1, 0x5000_0001, &LIST_L, 0));
    assert!(!agrees_with(place::WAITING_1, 0x5000_0001, &LIST_L, 2));
    let one = table_with(&[(place::WAITING_1, 0x5000_0001)]);
    let other = table_with(&[
        (place::WAITING_1, 0x5000_0001),
        (place::SLOTS_1, 0xF000_0001),
    ]);
    assert!(agree(&one, &other, &cut(&LIST_L), 0));
    assert!(!agree(&one, &other, &cut(&LIST_L), 2));
}

#[test]
fn tables_agree_on_the_unchanging_parts() {
    assert!(agree(&TABLE_T, &TABLE_T, &cut(&LIST_L), 0));
    assert!(!agrees_with(place::NAME_1, 0x3000_0013, &LIST_L, 0));
    assert!(!agrees_with(place::INFO_1, 0x4000_0202, &LIST_L, 0));
    assert!(!agrees_with(place::INFO_1, 0x4000_0001, &LIST_L, 0));
    let fewer = [&[0x1000_0301], &TABLE_T[1..22]].concat();
    assert_eq!(check_table(&fewer), 0);
    assert!(!agree(&TABLE_T, &fewer, &cut(&LIST_L), 0));
}

/// Why rights held on a member count: domain 2 has none on domain 1 in table T, so
/// it is no member, and with one its send reaches domain 1.
#[test]
fn a_right_on_a_member_alters_what_it_sees() {
    let list = [0x2080_0000, 0xF000_0007];
    let other = table_with(&[(place::rights(2, 1), 0x2000_0001)]);
    let calls = cut(&list);
    assert_eq!(Vec::from_iter(members(&TABLE_T, &calls, 1)), [1]);
    assert!(!agree(&TABLE_T, &other, &calls, 1));
    let (one, two) = (run_from(&TABLE_T, &list), run_from(&other, &list));
    assert_ne!(seen(&one, &calls, 1), seen(&two, &calls, 1));
}

fn seen(ran: &Run, calls: &[Call], d: usize) -> reference::View {
    view(&ran.table, calls, &ran.answers, d)
}

/// How often what would make the rule empty was met.
#[derive(Default, Debug)]
struct Met {
    /// Pairs with a member besides the domain itself.
    with_members: usize,
    /// Pairs that differ in the part of a domain that isn't a member.
    parts_differing: usize,
    /// Pairs whose runs differ in the answers of another domain.
    answers_differing: usize,
    /// Pairs that were drawn without looking at the members.
    drawn_blindly: usize,
}

/// The rule for a pair of tables that agree.
fn rule_holds(seed: u64, one: &[u32], other: &[u32], list: &[u32], d: usize, met: &mut Met) {
    let calls = cut(list);
    let runs = [run_from(one, list), run_from(other, list)];
    let views = runs.each_ref().map(|ran| seen(ran, &calls, d));
    let text = format!("{}\nother {}", shown(seed, one, list), hex(other));
    assert_eq!((runs[0].code, runs[1].code), (0, 0), "{text}");
    assert!(
        views[0] == views[1],
        "the views of domain {d} differ, {text}\nfirst {:X?}\nsecond {:X?}",
        views[0],
        views[1]
    );
    let set = members(one, &calls, d);
    assert!(
        set == members(other, &calls, d),
        "the sets of domain {d} differ, {text}"
    );
    let others = || (0..domains(one)).filter(|&v| v != d);
    met.with_members += usize::from(set.len() > 1);
    met.parts_differing +=
        usize::from(others().any(|v| !set.contains(&v) && part(one, v) != part(other, v)));
    met.answers_differing += usize::from(others().any(|v| {
        let answers = runs.each_ref().map(|ran| seen(ran, &calls, v).answers);
        answers[0] != answers[1]
    }));
}

/// The rule for each domain of a table and a list, with a table that is drawn to
/// agree on the members, and with one drawn blindly where it does.
fn try_pairs(rng: &mut Rng, seed: u64, one: &[u32], list: &[u32], met: &mut Met) {
    let calls = cut(list);
    for d in 0..domains(one) {
        let other = redrawn_but_for(rng, one, &members(one, &calls, d));
        assert_eq!(check_table(&other), 0);
        assert!(agree(one, &other, &calls, d), "{}", shown(seed, one, list));
        rule_holds(seed, one, &other, list, d, met);
        let other = altered(rng, one);
        assert_eq!(check_table(&other), 0);
        if other != one && agree(one, &other, &calls, d) {
            rule_holds(seed, one, &other, list, d, met);
            met.drawn_blindly += 1;
        }
    }
}

fn search(seeds: std::ops::Range<u64>, max_n: usize, max_m: usize, max_words: usize) -> Met {
    let mut met = Met::default();
    for seed in seeds {
        let rng = &mut Rng::new(seed);
        let table = table(rng, max_n, max_m);
        let list = list(rng, &table, max_words);
        try_pairs(rng, seed, &table, &list, &mut met);
    }
    met
}

#[test]
fn two_lines_that_agree_show_a_domain_the_same() {
    let met = search(0..3000, 6, 4, 16);
    assert!(met.with_members > 4_000, "{met:?}");
    assert!(met.parts_differing > 8_000, "{met:?}");
    assert!(met.answers_differing > 2_500, "{met:?}");
    assert!(met.drawn_blindly > 1_500, "{met:?}");
}

/// Any size of table.
#[test]
fn two_large_lines_that_agree_show_a_domain_the_same() {
    let met = search(0..40, 16, 32, 60);
    assert!(met.with_members > 150, "{met:?}");
    assert!(met.parts_differing > 200, "{met:?}");
    assert!(met.answers_differing > 60, "{met:?}");
}
