//! The generator meets what it is biased towards: every code, full and emptied
//! queues, lost counts at their top, the smallest and the largest tables, spaces that
//! are just enough and lists that are just too long.

use std::collections::BTreeSet;

use crate::support::{code_of, shown};
use reference::generate::{
    case, damaged_table, linerun_input, list, table, table_of, writing, Rng, Writing,
};
use reference::table::{capacity, domains, endpoints, lost, owner, right, rights, waiting};
use reference::words::CONTENT_MAX;
use reference::{check_table, cut, fits, linerun, run, step, Value};

#[test]
fn the_same_seed_draws_the_same() {
    let drawn = |seed| {
        let rng = &mut Rng::new(seed);
        let table = table(rng, 16, 32);
        let list = list(rng, &table, 100);
        (table, list)
    };
    assert_eq!(drawn(7), drawn(7));
    assert_ne!(drawn(7), drawn(8));
}

#[test]
fn tables_are_accepted_and_of_every_size() {
    let (mut n_met, mut m_met) = (BTreeSet::new(), BTreeSet::new());
    for seed in 0..1000 {
        let table = table(&mut Rng::new(seed), 16, 32);
        assert_eq!(check_table(&table), 0, "{}", shown(seed, &table, &[]));
        n_met.insert(domains(&table));
        m_met.insert(endpoints(&table));
    }
    assert_eq!(n_met, (1..=16).collect());
    assert_eq!(m_met, (0..=32).collect());
    assert_eq!(table_of(&mut Rng::new(1), 16, 32).len(), 641);
}

#[test]
fn lists_keep_to_their_length() {
    for seed in 0..300 {
        let rng = &mut Rng::new(seed);
        let max_words = rng.below(50);
        let table = table(rng, 16, 32);
        assert!(list(rng, &table, max_words).len() <= max_words);
    }
}

#[test]
fn every_code_of_a_call_is_met() {
    let mut met = BTreeSet::new();
    let (mut calls, mut done) = (0, 0);
    for seed in 0..300 {
        let rng = &mut Rng::new(seed);
        let mut now = table(rng, 16, 32);
        for call in cut(&list(rng, &now, 60)) {
            let code = code_of(&step(&mut now, &call));
            met.insert(code);
            calls += 1;
            done += usize::from(code == 0);
        }
    }
    let expected: BTreeSet<u32> = std::iter::once(0).chain(10..=23).collect();
    assert_eq!(met, expected);
    assert!(2 * done > calls, "{done} of {calls} calls did something");
}

/// Removes of several rights that are done, and removes of sets of which just one
/// right isn't held although REMOVE is.
#[test]
fn removes_name_sets_and_sets_with_one_right_missing() {
    let (mut several, mut one_missing) = (0, 0);
    for seed in 0..600 {
        let rng = &mut Rng::new(seed);
        let mut now = table(rng, 6, 6);
        for call in cut(&list(rng, &now, 60)) {
            let before = now.clone();
            let code = code_of(&step(&mut now, &call));
            if call.kind() == 7 && (code == 0 || code == 22) {
                let caller = call.caller().unwrap() as usize;
                let held = rights(&before, caller, call.a() as usize);
                let missing = call.c() & !held;
                several += usize::from(code == 0 && call.c().count_ones() > 1);
                let one = missing.count_ones() == 1 && missing != call.c();
                one_missing += usize::from(one && held & right::REMOVE != 0);
            }
        }
    }
    assert!(several > 150, "several rights {several}");
    assert!(one_missing > 30, "one right missing {one_missing}");
}

/// Revokes that are done, by the holder itself and by others, of rights that the
/// holder has and of rights that it lacks.
#[test]
fn revokes_are_by_holders_and_others_of_rights_held_and_missing() {
    let mut met = [[0; 2]; 2];
    for seed in 0..600 {
        let rng = &mut Rng::new(seed);
        let mut now = table(rng, 6, 6);
        for call in cut(&list(rng, &now, 60)) {
            let before = now.clone();
            let done = code_of(&step(&mut now, &call)) == 0;
            if call.kind() == 8 && done {
                let missing = call.c() & !rights(&before, call.b() as usize, call.a() as usize);
                let by_holder = call.caller() == Some(call.b());
                met[usize::from(by_holder)][usize::from(missing != 0)] += 1;
            }
        }
    }
    assert!(met.iter().flatten().all(|&times| times > 50), "{met:?}");
}

#[test]
fn every_code_of_an_entry_is_met() {
    let mut met = BTreeSet::new();
    let mut damage = BTreeSet::new();
    for seed in 0..600 {
        let mut case = case(&mut Rng::new(seed), 8, 8, 20);
        met.insert(run(&mut case.table, &case.list, &mut case.answers).0);
        damage.insert(damaged_table(&mut Rng::new(seed), 8, 8).1);
    }
    assert_eq!(met, (0..=6).collect());
    assert_eq!(damage, (2..=5).collect());
}

#[test]
fn every_code_of_the_program_is_met() {
    let mut met = BTreeSet::new();
    for seed in 0..600 {
        let input = linerun_input(&mut Rng::new(seed), 8, 8, 20);
        let printed = String::from_utf8(linerun(&input)).unwrap();
        let first = printed.lines().next().unwrap().to_owned();
        let code = first.rsplit(' ').next().unwrap().to_owned();
        met.insert(code.parse::<u32>().unwrap());
    }
    assert_eq!(met, BTreeSet::from([0, 1, 2, 3, 4, 5, 7]));
}

#[test]
fn queues_fill_and_empty_and_lost_counts_reach_the_top() {
    let (mut filled, mut emptied, mut topped) = (0, 0, 0);
    for seed in 0..300 {
        let rng = &mut Rng::new(seed);
        let mut now = table(rng, 6, 6);
        for call in cut(&list(rng, &now, 60)) {
            let before = now.clone();
            step(&mut now, &call);
            for e in 0..endpoints(&now) {
                let moved = waiting(&before, e) != waiting(&now, e);
                filled += usize::from(moved && waiting(&now, e) == capacity(&now, e));
                emptied += usize::from(moved && waiting(&now, e) == 0);
                let rose = lost(&before, e) != lost(&now, e);
                topped += usize::from(rose && lost(&now, e) == CONTENT_MAX);
            }
        }
    }
    assert!(filled > 100, "filled {filled}");
    assert!(emptied > 100, "emptied {emptied}");
    assert!(topped > 20, "reached the top {topped}");
}

/// Sends that are done on a full queue, also where lost is at its top already, and
/// of owners into their own endpoints.
#[test]
fn full_queues_are_sent_into() {
    let (mut full, mut at_top, mut own) = (0, 0, 0);
    for seed in 0..300 {
        let rng = &mut Rng::new(seed);
        let mut now = table(rng, 6, 6);
        for call in cut(&list(rng, &now, 60)) {
            let before = now.clone();
            let done = code_of(&step(&mut now, &call)) == 0;
            let e = call.b() as usize;
            if call.kind() == 2 && done && waiting(&before, e) == capacity(&before, e) {
                full += 1;
                at_top += usize::from(lost(&before, e) == CONTENT_MAX);
                own += usize::from(call.caller() == Some(owner(&before, e) as u32));
            }
        }
    }
    assert!(full > 400, "full {full}");
    assert!(at_top > 120, "lost at its top {at_top}");
    assert!(own > 200 && full - own > 100, "by owners {own} of {full}");
}

/// Lists that fit and are lent one word too few or just enough, and lists of the most
/// words and of one more that are lent enough.
#[test]
fn writings_are_met_on_both_sides_of_their_limits() {
    let (mut short_by_one, mut just_enough, mut most, mut one_more) = (0, 0, 0, 0);
    for seed in 0..3000 {
        let Writing { calls, space } = writing(&mut Rng::new(seed), 12);
        let of_two = |call: &&Value| matches!(call, Value::LookUp { .. } | Value::Send { .. });
        let needed = calls.len() + calls.iter().filter(of_two).count();
        if needed > 0 && calls.iter().all(fits) {
            short_by_one += usize::from(space.len() + 1 == needed);
            just_enough += usize::from(space.len() == needed);
            let enough = space.len() >= needed;
            most += usize::from(enough && needed == 4096);
            one_more += usize::from(enough && needed == 4097);
        }
    }
    assert!(short_by_one > 150, "short by one {short_by_one}");
    assert!(just_enough > 200, "just enough {just_enough}");
    assert!(most > 5 && one_more > 5, "{most} {one_more}");
}
