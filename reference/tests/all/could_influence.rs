//! Who could influence a domain: rows for chains of potential rights, the edges of the
//! refusals, and both ways over random tables. No list of the actors puts anybody else
//! into a source set, the one list that is built puts all of them there, and a domain sees
//! the same without the calls of all others.

use std::collections::BTreeSet;

use crate::support::{both_views, code_of, rights_table, run_from, shown};
use reference::calls::LIST_WORDS_MAX;
use reference::example::TABLE_T;
use reference::generate::{
    chained_table, influence_case, list, list_by, redrawn_but_for, set_of_domains, table,
    walled_table, InfluenceCase, Rng,
};
use reference::table::domains;
use reference::{
    check_table, component, could_influence, cut, influence_list, purge, sources, step,
    who_reaches, Call,
};

/// The set for an accepted table, as numbers.
fn influencers(table: &[u32], actors: u32, domain: usize) -> Vec<usize> {
    let (code, set) = could_influence(table, actors, domain as u32);
    assert_eq!(code, 0);
    (0..32).filter(|&u| set >> u & 1 == 1).collect()
}

/// Every domain of an accepted table.
fn everyone(table: &[u32]) -> u32 {
    (1 << domains(table)) - 1
}

/// A drawn table: of any rights, of few that go a long way, or in groups.
fn any_table(rng: &mut Rng, max_n: usize) -> Vec<u32> {
    match rng.below(3) {
        0 => table(rng, max_n, 2),
        1 => chained_table(rng, max_n, 2),
        _ => walled_table(rng, max_n, 2),
    }
}

#[test]
fn the_domain_itself_always_can_whether_it_acts_or_not() {
    for actors in [0b000, 0b001, 0b111] {
        for domain in 0..3 {
            assert_eq!(influencers(&rights_table(3, &[]), actors, domain), [domain]);
        }
    }
}

#[test]
fn any_right_lets_an_actor_and_nobody_else() {
    for set in 1..16 {
        let table = rights_table(3, &[(0, 1, set)]);
        for actors in 0..8 {
            let can = if actors & 1 == 1 { vec![0, 1] } else { vec![1] };
            assert_eq!(influencers(&table, actors, 1), can);
            assert_eq!(influencers(&table, actors, 2), [2]);
            // Nobody can by what is held on it.
            assert_eq!(influencers(&table, actors, 0), [0]);
        }
    }
}

#[test]
fn a_chain_goes_through_actors_alone() {
    // 3 has a right on 2, 2 on 1, 1 on 0; nobody has GRANT.
    let table = rights_table(4, &[(3, 2, 1), (2, 1, 4), (1, 0, 8)]);
    assert_eq!(influencers(&table, 0b1111, 0), [0, 1, 2, 3]);
    assert_eq!(influencers(&table, 0b1110, 0), [0, 1, 2, 3]);
    assert_eq!(influencers(&table, 0b0111, 0), [0, 1, 2]);
    assert_eq!(influencers(&table, 0b1011, 0), [0, 1]);
    assert_eq!(influencers(&table, 0b1101, 0), [0]);
    assert_eq!(influencers(&table, 0b1111, 2), [2, 3]);
}

#[test]
fn a_chain_of_sixteen_is_followed_to_its_end() {
    let links: Vec<_> = (0..15).map(|d| (d + 1, d, 1)).collect();
    let table = rights_table(16, &links);
    assert_eq!(influencers(&table, 0xFFFF, 0), Vec::from_iter(0..16));
}

#[test]
fn the_rights_are_those_that_the_actors_could_ever_give() {
    // 1 has SEND and GRANT on 2 and a right on 0: it can give 0 a right on 2.
    let table = rights_table(3, &[(1, 2, 3), (1, 0, 1)]);
    assert_eq!(influencers(&table, 0b011, 2), [0, 1, 2]);
    assert_eq!(influencers(&table, 0b111, 2), [0, 1, 2]);
    // Where 1 doesn't act 0 never gets it, and 1 itself makes no call.
    assert_eq!(influencers(&table, 0b001, 2), [2]);
    assert_eq!(influencers(&table, 0b010, 2), [1, 2]);
    // In table T domain 1 can give domain 0 what it has on domain 2.
    assert_eq!(influencers(&TABLE_T, 0b111, 2), [0, 1, 2]);
    assert_eq!(influencers(&TABLE_T, 0b001, 2), [2]);
    assert_eq!(influencers(&TABLE_T, 0b111, 0), [0, 1]);
}

/// Five domains: 0 has rights on 1 and 2, 3 has GRANT on 4 and a right on 1. No table of
/// the list has a chain of rights from 0 to 4, and 0 is in the source set of 4.
#[test]
fn a_source_may_have_no_chain_in_any_table_of_the_list() {
    let table = handed_down_table();
    let calls = cut(&HANDED_DOWN);
    let sets: Vec<BTreeSet<usize>> = sources(&table, &calls, 4);
    assert_eq!(Vec::from_iter(sets[0].clone()), [0, 1, 2, 3, 4]);
    assert_eq!(Vec::from_iter(sets[3].clone()), [1, 2, 3, 4]);
    assert_eq!(purge(&table, &calls, 4), [true; 6]);
    let mut now = table.clone();
    for call in &calls {
        assert_eq!(who_reaches(&reference::holders(&now), 4).1 & 1, 0);
        assert_eq!(code_of(&step(&mut now, call)), 0);
    }
    assert_eq!(who_reaches(&reference::holders(&now), 4).1 & 1, 0);
    // Without the calls of 0 nothing comes to the queue of 4.
    let (queued, none) = (
        run_from(&table, &HANDED_DOWN),
        run_from(&table, &HANDED_DOWN[3..]),
    );
    assert_eq!(
        (queued.table[28], none.table[28]),
        (0x5000_0001, 0x5000_0000)
    );
    assert_eq!(influencers(&table, 0b11111, 4), [0, 1, 2, 3, 4]);
    // 3 is needed for it, and nobody else ever counts for 3.
    assert_eq!(influencers(&table, 0b10111, 4), [4]);
    assert_eq!(influencers(&table, 0b11111, 3), [3]);
}

/// Domain 0 grants domain 1 SEND on 2, gives up what it has on 1 and on 2; 3 grants 1 SEND
/// and GRANT on 4, 1 grants 2 SEND on 4, and 2 sends 5 to the endpoint of 4.
const HANDED_DOWN: [u32; 7] = [
    0x6002_0101,
    0x7001_0005,
    0x7002_0007,
    0x60C4_0103,
    0x6044_0201,
    0x2080_0000,
    0xF000_0005,
];

fn handed_down_table() -> Vec<u32> {
    let mut table = rights_table(5, &[(0, 1, 5), (0, 2, 7), (3, 4, 3), (3, 1, 1)]);
    table[0] |= 1;
    table.extend([0x3000_0001, 0x4000_0401, 0x5000_0000, 0x6000_0000]);
    table.extend([0xF000_0000; 8]);
    assert_eq!(check_table(&table), 0);
    table
}

#[test]
fn refusals_and_their_order() {
    for domain in [3, 4, 31, 32, u32::MAX] {
        assert_eq!(could_influence(&TABLE_T, 7, domain), (32, 0));
    }
    for bit in 3..32 {
        assert_eq!(could_influence(&TABLE_T, 1 << bit, 0), (32, 0));
        assert_eq!(could_influence(&TABLE_T, 7 | 1 << bit, 2), (32, 0));
    }
    for (place, code) in [(0, 2), (1, 4), (10, 5)] {
        let mut table = TABLE_T;
        table[place] = 0;
        for (actors, domain) in [(7, 0), (8, 0), (7, 3)] {
            assert_eq!(could_influence(&table, actors, domain), (code, 0));
        }
    }
    assert_eq!(could_influence(&TABLE_T[..33], 8, 3), (3, 0));
    let largest = rights_table(16, &[]);
    assert_eq!(could_influence(&largest, 0xFFFF, 15), (0, 0x8000));
    assert_eq!(could_influence(&largest, 0x1_0000, 15), (32, 0));
    assert_eq!(could_influence(&largest, 0, 16), (32, 0));
}

/// Questions of any words are answered with the code that they must be.
#[test]
fn every_question_is_answered_by_its_code() {
    let mut met = [0, 2, 3, 4, 5, 32].map(|code| (code, 0));
    for seed in 0..2000 {
        let rng = &mut Rng::new(seed);
        let InfluenceCase {
            table,
            actors,
            domain,
        } = influence_case(rng, 6, 2);
        let wanted = match check_table(&table) {
            0 if domain as usize >= domains(&table) => 32,
            0 if actors > everyone(&table) => 32,
            code => code,
        };
        let (code, set) = could_influence(&table, actors, domain);
        assert_eq!(code, wanted, "{}", shown(seed, &table, &[actors, domain]));
        assert_eq!(set == 0, code != 0);
        for (known, count) in &mut met {
            *count += usize::from(*known == code);
        }
    }
    assert!(met.iter().all(|&(_, count)| count > 20), "{met:?}");
}

/// No list whose known callers are all actors puts anybody else into a source set, and a
/// run lets nobody influence that could not before.
#[test]
fn no_list_of_the_actors_has_another_source() {
    let (mut sourced, mut outside) = (0, 0);
    for seed in 0..1500 {
        let rng = &mut Rng::new(seed);
        let start = any_table(rng, 6);
        let n = domains(&start);
        let actors = set_of_domains(rng, n) | set_of_domains(rng, n);
        let list = list_by(rng, &start, actors, 24);
        let left = run_from(&start, &list).table;
        for d in 0..n {
            let text = shown(seed, &start, &list);
            let could = influencers(&start, actors, d);
            let set = &sources(&start, &cut(&list), d)[0];
            assert!(set.iter().all(|u| could.contains(u)), "{text}");
            let later = influencers(&left, actors, d);
            assert!(later.iter().all(|u| could.contains(u)), "{text}");
            sourced += set.len() - 1;
            outside += n - could.len();
        }
    }
    assert!(sourced > 2000 && outside > 4000, "{sourced} and {outside}");
}

/// The one list puts everybody who could into the source set of each domain, is done call
/// by call, is by actors alone, and fits a list.
#[test]
fn the_list_that_is_built_makes_every_source() {
    let (mut longest, mut met) = (0, 0);
    for seed in 0..500 {
        let rng = &mut Rng::new(seed);
        let start = any_table(rng, if seed % 10 == 0 { 16 } else { 6 });
        let n = domains(&start);
        let actors = set_of_domains(rng, n) | set_of_domains(rng, n);
        let list = influence_list(&start, actors);
        let calls = cut(&list);
        let text = shown(seed, &start, &list);
        assert!(list.len() <= LIST_WORDS_MAX && list.len() <= 16 * n * n);
        let ran = run_from(&start, &list);
        assert_eq!(ran.code, 0, "{text}");
        for (call, answer) in calls.iter().zip(ran.answers.chunks_exact(3)) {
            assert_eq!(code_of(answer), 0, "{text}");
            assert_eq!(actors >> call.caller().unwrap() & 1, 1, "{text}");
        }
        for d in 0..n {
            let set = &sources(&start, &calls, d)[0];
            let could = influencers(&start, actors, d);
            assert_eq!(Vec::from_iter(set.iter().copied()), could, "{text}");
            met += usize::from(could.len() > 2);
        }
        longest = longest.max(list.len());
    }
    assert!(met > 500 && longest > 200, "{met} and {longest}");
}

/// Which calls are made by members of a set; strays and unknown callers aren't.
fn made_by(set: &[usize], calls: &[Call]) -> Vec<bool> {
    let callers = calls.iter().map(Call::caller);
    let by = |caller: Option<u32>| caller.is_some_and(|caller| set.contains(&(caller as usize)));
    callers.map(by).collect()
}

/// A domain sees the same without the calls of all who could never influence it, and the
/// same on a line that differs only in what these have among themselves.
#[test]
fn a_domain_sees_the_same_without_all_others() {
    let (mut purged, mut smaller) = (0, 0);
    for seed in 0..800 {
        let rng = &mut Rng::new(seed);
        let start = any_table(rng, 6);
        let list = list(rng, &start, 24);
        let calls = cut(&list);
        let whole = run_from(&start, &list);
        for d in 0..domains(&start) {
            let text = shown(seed, &start, &list);
            let could = influencers(&start, everyone(&start), d);
            let kept = made_by(&could, &calls);
            let (of_whole, of_kept, _) = both_views(&start, &calls, &whole, &kept, d);
            assert_eq!(of_whole, of_kept, "domain {d}, {text}");
            let group = component(&start, d);
            assert!(could.iter().all(|u| group.contains(u)), "{text}");
            let members = BTreeSet::from_iter(could.iter().copied());
            let other = redrawn_but_for(rng, &start, &members);
            assert_eq!(influencers(&other, everyone(&start), d), could, "{text}");
            let ran = run_from(&other, &list);
            let of_other = reference::view(&ran.table, &calls, &ran.answers, d);
            assert_eq!(of_whole, of_other, "domain {d}, {text}");
            purged += kept.iter().filter(|kept| !**kept).count();
            smaller += usize::from(could.len() < group.len());
        }
    }
    assert!(purged > 5000 && smaller > 300, "{purged} and {smaller}");
}
