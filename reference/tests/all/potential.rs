//! Potential rights: rows for what a grant could ever give, the edges of the refusals,
//! and both ways over random tables. No list of the members goes beyond them, the list
//! that is built gives them all, and a second way finds the same by having the machine
//! try every grant there is.

use crate::support::{code_of, rights_table, shown, UNTOUCHED};
use reference::example::TABLE_T;
use reference::generate::{
    call_word, chained_table, list_by, potential_case, set_of_domains, table, walled_table,
    PotentialCase, Rng,
};
use reference::influence::tables_before;
use reference::table::{domains, rights};
use reference::{
    check_table, component, cut, grants_for, grants_for_all, potential_rights, step, Call,
};

/// The potential rights of an accepted table.
fn potential(table: &[u32], members: u32) -> Vec<u32> {
    let n = domains(table);
    let mut space = vec![UNTOUCHED; n * n];
    assert_eq!(potential_rights(table, members, &mut space), 0);
    space
}

/// A drawn table, half of the time one in which rights go a long way.
fn either_table(rng: &mut Rng, max_n: usize) -> Vec<u32> {
    if rng.chance(1, 2) {
        chained_table(rng, max_n, 2)
    } else {
        table(rng, max_n, 2)
    }
}

/// The rights of a table, as they stand.
fn present(table: &[u32]) -> Vec<u32> {
    let n = domains(table);
    (0..n * n)
        .map(|pair| rights(table, pair / n, pair % n))
        .collect()
}

/// Whether one matrix has no right that the other lacks.
fn within(one: &[u32], other: &[u32]) -> bool {
    one.iter().zip(other).all(|(a, b)| a & !b == 0)
}

#[test]
fn a_member_gives_what_it_has_to_whom_it_reaches() {
    // 0 has SEND and GRANT on 2, and a right on 1.
    for any in 1..16 {
        let table = rights_table(3, &[(0, 2, 3), (0, 1, any)]);
        for members in 0..8 {
            let given = potential(&table, members)[3 + 2];
            assert_eq!(given, if members & 1 == 1 { 3 } else { 0 });
        }
    }
    // Not without GRANT, whatever else it has, nor without a right on the recipient.
    for other in [1, 4, 5, 8, 9, 12, 13] {
        let table = rights_table(3, &[(0, 2, other), (0, 1, 13)]);
        assert_eq!(potential(&table, 7), present(&table));
    }
    let table = rights_table(3, &[(0, 0, 15), (1, 2, 15)]);
    let with_own = [15, 0, 0, 0, 0, 15, 0, 0, 15];
    assert_eq!(potential(&table, 7), with_own);
    // A target that is its own recipient is given rights on itself.
    let table = rights_table(2, &[(0, 1, 2)]);
    assert_eq!(potential(&table, 1), [0, 2, 0, 2]);
}

#[test]
fn the_potential_rights_of_table_t() {
    assert_eq!(potential(&TABLE_T, 0), [0, 1, 0, 1, 0, 7, 0, 0, 0]);
    assert_eq!(potential(&TABLE_T, 0b101), [0, 1, 0, 1, 0, 7, 0, 0, 0]);
    for members in [0b010, 0b011, 0b110, 0b111] {
        assert_eq!(potential(&TABLE_T, members), [0, 1, 7, 1, 0, 7, 0, 0, 7]);
    }
}

/// What is given can be given on by members alone, and a right on the recipient may
/// itself be given first.
#[test]
fn rights_go_from_member_to_member() {
    // 0 → 1 → 2 → 3, and 0 has all rights on 4.
    let chain = [(0, 1, 1), (1, 2, 1), (2, 3, 1), (0, 4, 15)];
    let table = rights_table(5, &chain);
    let on_4 = |members| {
        let all = potential(&table, members);
        [0, 1, 2, 3].map(|holder| all[5 * holder + 4])
    };
    assert_eq!(on_4(0b00000), [15, 0, 0, 0]);
    assert_eq!(on_4(0b00001), [15, 15, 0, 0]);
    assert_eq!(on_4(0b00011), [15, 15, 15, 0]);
    assert_eq!(on_4(0b00111), [15, 15, 15, 15]);
    assert_eq!(on_4(0b00101), [15, 15, 0, 0]);
    assert_eq!(on_4(0b00110), [15, 0, 0, 0]);
    // 1 can give 0 a right on 2, and 0 gives 2 what it has on 3 then.
    let table = rights_table(4, &[(1, 2, 2), (1, 0, 8), (0, 3, 6)]);
    assert_eq!(potential(&table, 0b0011)[4 * 2 + 3], 6);
    assert_eq!(potential(&table, 0b0001)[4 * 2 + 3], 0);
    // 0 gives 1 GRANT, and with it 1 gives 2 the SEND that it has already.
    let table = rights_table(4, &[(0, 3, 2), (0, 1, 1), (1, 3, 1), (1, 2, 4)]);
    assert_eq!(potential(&table, 0b0011)[4 * 2 + 3], 3);
    assert_eq!(potential(&table, 0b0010)[4 * 2 + 3], 0);
    assert_eq!(potential(&table, 0b0001)[4 * 2 + 3], 0);
}

/// Asserts that nothing is written.
fn is_refused(table: &[u32], members: u32, space: usize, code: u32) {
    let mut left = vec![UNTOUCHED; space];
    assert_eq!(potential_rights(table, members, &mut left), code);
    assert_eq!(left, vec![UNTOUCHED; space]);
}

#[test]
fn refusals_and_their_order() {
    for space in [0, 1, 8, 10, 256] {
        is_refused(&TABLE_T, 0b111, space, 6);
        is_refused(&TABLE_T, 0b1000, space, 6);
    }
    for bit in 3..32 {
        is_refused(&TABLE_T, 1 << bit, 9, 32);
        is_refused(&TABLE_T, 1 << bit | 7, 9, 32);
    }
    for (place, code) in [(0, 2), (1, 4), (10, 5)] {
        let mut table = TABLE_T;
        table[place] = 0;
        for (members, space) in [(7, 9), (8, 9), (7, 8), (8, 8)] {
            is_refused(&table, members, space, code);
        }
    }
    is_refused(&TABLE_T[..33], 8, 8, 3);
    let largest = rights_table(16, &[]);
    assert_eq!(potential(&largest, 0xFFFF), [0; 256]);
    is_refused(&largest, 0x1_0000, 256, 32);
}

/// The rights once the machine has tried every grant of every member until none alters
/// the table.
fn all_tried(table: &[u32], members: u32) -> Vec<u32> {
    let n = domains(table);
    let mut now = table.to_vec();
    loop {
        let before = now.clone();
        for (caller, target) in (0..n * n).map(|pair| (pair / n, pair % n)) {
            for recipient in (0..n).filter(|_| members >> caller & 1 == 1) {
                for set in 1..16 {
                    let first = call_word(6, caller, target, recipient, set);
                    step(
                        &mut now,
                        &Call {
                            first,
                            second: None,
                        },
                    );
                }
            }
        }
        if now == before {
            return present(&now);
        }
    }
}

/// How often what would make the properties empty was met.
#[derive(Default, Debug)]
struct Met {
    refused: usize,
    /// Tables that have potential rights besides their own.
    adding: usize,
    /// Those where some of the rights that all domains could get need others' calls.
    less_than_all: usize,
}

fn check_case(seed: u64, case: &PotentialCase, met: &mut Met) {
    let PotentialCase { table, members, .. } = case;
    let text = shown(seed, table, &[*members]);
    let mut space = case.space.clone();
    let code = potential_rights(table, *members, &mut space);
    let expected = match check_table(table) {
        0 if space.len() != domains(table) * domains(table) => 6,
        0 if u64::from(*members) >= 1 << domains(table) => 32,
        code => code,
    };
    assert_eq!(code, expected, "{text}");
    if code != 0 {
        assert_eq!(space, case.space, "{text}");
        met.refused += 1;
        return;
    }
    assert_eq!(space, all_tried(table, *members), "{text}");
    met.adding += usize::from(space != present(table));
    let everyone = (1 << domains(table)) - 1;
    let by_all = potential(table, everyone);
    assert!(within(&space, &by_all), "{text}");
    met.less_than_all += usize::from(space != by_all && space != present(table));
}

#[test]
fn potential_rights_are_those_of_all_grants_tried() {
    let mut met = Met::default();
    for seed in 0..800 {
        check_case(seed, &potential_case(&mut Rng::new(seed), 6, 2), &mut met);
    }
    for seed in 0..12 {
        check_case(seed, &potential_case(&mut Rng::new(seed), 16, 0), &mut met);
    }
    assert!(met.refused > 150 && met.adding > 200, "{met:?}");
    assert!(met.less_than_all > 80, "{met:?}");
}

/// No list whose known callers are all members goes beyond the potential rights.
#[test]
fn no_list_of_the_members_goes_beyond() {
    let (mut given, mut taken) = (0, 0);
    for seed in 0..1500 {
        let rng = &mut Rng::new(seed);
        let start = either_table(rng, 6);
        let members = set_of_domains(rng, domains(&start));
        let list = list_by(rng, &start, members, 24);
        let bound = potential(&start, members);
        let calls = cut(&list);
        for call in &calls {
            let caller = call.caller().unwrap_or(63) as usize;
            assert!(caller >= domains(&start) || members >> caller & 1 == 1);
        }
        for pair in tables_before(&start, &calls).windows(2) {
            let (before, now) = (present(&pair[0]), present(&pair[1]));
            assert!(within(&now, &bound), "{}", shown(seed, &start, &list));
            given += usize::from(!within(&now, &before));
            taken += usize::from(!within(&before, &now));
            // And what remains potential never becomes more.
            let later = potential(&pair[1], members);
            assert!(within(&later, &bound), "{}", shown(seed, &start, &list));
        }
    }
    assert!(given > 1500 && taken > 500, "given {given}, taken {taken}");
}

/// A list's codes, and the rights that each of its calls leaves.
fn run_grants(table: &[u32], list: &[u32]) -> Vec<(u32, Vec<u32>)> {
    let mut now = table.to_vec();
    let mut each = Vec::new();
    for call in cut(list) {
        let code = code_of(&step(&mut now, &call));
        each.push((code, present(&now)));
    }
    each
}

/// Asserts that a list is grants by members, each done and each adding some right, and
/// gives the rights that it leaves.
fn left_by_grants(table: &[u32], members: u32, list: &[u32]) -> Vec<u32> {
    let mut before = present(table);
    for (call, (code, now)) in cut(list).iter().zip(run_grants(table, list)) {
        assert_eq!(call.kind(), 6);
        assert_eq!(members >> call.caller().unwrap() & 1, 1);
        assert_eq!(code, 0, "{}", shown(0, table, list));
        assert!(before != now, "{}", shown(0, table, list));
        before = now;
    }
    before
}

#[test]
fn the_list_that_is_built_gives_every_potential_right() {
    let mut longest = 0;
    for seed in 0..800 {
        let rng = &mut Rng::new(seed);
        let start = either_table(rng, if seed % 8 == 0 { 16 } else { 6 });
        let members = set_of_domains(rng, domains(&start));
        let list = grants_for_all(&start, members);
        let left = left_by_grants(&start, members, &list);
        let text = shown(seed, &start, &list);
        assert_eq!(left, potential(&start, members), "{text}");
        longest = longest.max(list.len());
    }
    assert!(longest > 20 && longest <= 1024, "{longest}");
}

/// Whether a list gives the wanted rights at a place of the matrix.
fn gives(table: &[u32], list: &[u32], at: usize, wanted: u32) -> bool {
    let left = match run_grants(table, list).pop() {
        Some((_, left)) => left,
        None => present(table),
    };
    left[at] & wanted == wanted
}

/// Checks the list for some rights, and gives its length: there is one just where the
/// rights are potential, it gives them, and none of its calls can be left out.
fn check_list_for(table: &[u32], members: u32, at: usize, wanted: u32) -> Option<usize> {
    let n = domains(table);
    let text = shown(0, table, &[members, at as u32, wanted]);
    let list = grants_for(table, members, at / n, at % n, wanted);
    let can_come = potential(table, members)[at] & wanted == wanted;
    assert_eq!(list.is_some(), can_come, "{text}");
    let list = list?;
    left_by_grants(table, members, &list);
    assert!(gives(table, &list, at, wanted), "{text}");
    for left_out in 0..list.len() {
        let fewer = [&list[..left_out], &list[left_out + 1..]].concat();
        assert!(!gives(table, &fewer, at, wanted), "{text}");
    }
    Some(list.len())
}

#[test]
fn the_list_for_one_right_gives_it_and_no_call_can_be_left_out() {
    // Rights that can't come, and those that come by none, one and more calls.
    let mut met = [0; 4];
    for seed in 0..120 {
        let rng = &mut Rng::new(seed);
        let start = either_table(rng, 7);
        let n = domains(&start);
        let members = set_of_domains(rng, n) | set_of_domains(rng, n);
        for at in 0..n * n {
            let wanted = rng.pick(&[1, 2, 4, 8, 3, 15]);
            match check_list_for(&start, members, at, wanted) {
                None => met[0] += 1,
                Some(length) => met[1 + length.min(2)] += 1,
            }
        }
    }
    assert!(met.iter().all(|&times| times > 100), "{met:?}");
}

/// The fewest grants that give a right, by trying all lists of so many grants.
fn fewest(table: &[u32], members: u32, at: usize, wanted: u32, most: usize) -> Option<usize> {
    let n = domains(table);
    let mut reached = std::collections::BTreeSet::from([table.to_vec()]);
    for count in 0..=most {
        if reached
            .iter()
            .any(|now| present(now)[at] & wanted == wanted)
        {
            return Some(count);
        }
        let mut next = std::collections::BTreeSet::new();
        for now in &reached {
            for grant in 0..n * n * n {
                let (caller, target, recipient) = (grant / n / n, grant / n % n, grant % n);
                // Giving all that one has gives no less than giving some.
                let set = rights(now, caller, target);
                if members >> caller & 1 == 1 {
                    let first = call_word(6, caller, target, recipient, set);
                    let mut after = now.clone();
                    step(
                        &mut after,
                        &Call {
                            first,
                            second: None,
                        },
                    );
                    next.insert(after);
                }
            }
        }
        reached = next;
    }
    None
}

/// The list for one right is mostly as short as can be.
#[test]
fn the_list_for_one_right_is_mostly_the_shortest() {
    let (mut shortest, mut longer) = (0, 0);
    for seed in 0..150 {
        let rng = &mut Rng::new(seed);
        let start = either_table(rng, 4);
        let n = domains(&start);
        let members = set_of_domains(rng, n) | set_of_domains(rng, n);
        for at in 0..n * n {
            let wanted = rng.pick(&[1, 2, 4, 8]);
            let list = grants_for(&start, members, at / n, at % n, wanted);
            let length = list.map_or(0, |list| list.len());
            if (1..=3).contains(&length) {
                let count = fewest(&start, members, at, wanted, length);
                let count = count.expect("the list itself gives it");
                shortest += usize::from(count == length);
                longer += usize::from(count < length);
            }
        }
    }
    let mostly = shortest > 100 && 10 * longer < shortest;
    assert!(mostly, "{shortest} shortest, {longer} longer");
}

/// Between two groups nothing is potential, and in a group without a member nothing
/// beyond the table.
#[test]
fn outside_a_group_nothing_is_potential() {
    let (mut walls, mut still) = (0, 0);
    for seed in 0..600 {
        let rng = &mut Rng::new(seed);
        let start = walled_table(rng, 8, 2);
        let n = domains(&start);
        let members = set_of_domains(rng, n);
        let all = potential(&start, members);
        for holder in 0..n {
            let group = component(&start, holder);
            let acts = group.iter().any(|&d| members >> d & 1 == 1);
            for target in 0..n {
                let could = all[n * holder + target];
                let text = shown(seed, &start, &[members]);
                if !group.contains(&target) {
                    assert_eq!(could, 0, "{text}");
                    walls += 1;
                } else if !acts {
                    assert_eq!(could, rights(&start, holder, target), "{text}");
                    still += 1;
                }
            }
        }
    }
    assert!(walls > 5000 && still > 1000, "walls {walls}, still {still}");
}
