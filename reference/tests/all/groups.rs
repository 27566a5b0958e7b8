//! Walls that no list can open (document 02, request (j)): rows for groups, and the
//! two rules over random tables and lists. In every table of a run a domain
//! influences none outside its starting group; and a domain sees the same when all
//! calls from outside its starting group are struck.

use std::collections::BTreeSet;

use crate::support::{both_views, code_of, rights_table, run_from, shown};
use reference::example::TABLE_T;
use reference::generate::{call_word, list, table, walled_table, Rng};
use reference::influence::tables_before;
use reference::table::domains;
use reference::{component, cut, from_group, influences, step, Call};

fn group(table: &[u32], d: usize) -> Vec<usize> {
    Vec::from_iter(component(table, d))
}

#[test]
fn a_domain_without_rights_is_a_group_of_its_own() {
    for n in 1..=16 {
        for d in 0..n {
            assert_eq!(group(&rights_table(n, &[]), d), [d]);
            // A right on oneself joins nobody.
            assert_eq!(group(&rights_table(n, &[(d, d, 15)]), d), [d]);
        }
    }
}

#[test]
fn any_right_joins_both_ways() {
    for set in 1..16 {
        let table = rights_table(3, &[(2, 0, set)]);
        assert_eq!(group(&table, 0), [0, 2]);
        assert_eq!(group(&table, 1), [1]);
        assert_eq!(group(&table, 2), [0, 2]);
    }
    for d in 0..3 {
        assert_eq!(group(&TABLE_T, d), [0, 1, 2]);
    }
}

#[test]
fn what_hangs_together_is_a_group() {
    // 3 and 1 both have a right on 2 and none on each other; 0 and 4 are apart.
    let table = rights_table(6, &[(3, 2, 1), (1, 2, 2), (4, 0, 8)]);
    for d in [1, 2, 3] {
        assert_eq!(group(&table, d), [1, 2, 3]);
    }
    for d in [0, 4] {
        assert_eq!(group(&table, d), [0, 4]);
    }
    assert_eq!(group(&table, 5), [5]);
}

/// Sixteen domains in one line, the rights pointing this way and that.
#[test]
fn a_group_is_joined_by_any_number_of_steps() {
    let steps: Vec<(usize, usize, u32)> = (0..15)
        .map(|d| {
            if d % 3 == 0 {
                (d, d + 1, 1)
            } else {
                (d + 1, d, 4)
            }
        })
        .collect();
    let table = rights_table(16, &steps);
    for d in 0..16 {
        assert_eq!(group(&table, d), Vec::from_iter(0..16));
    }
    let parted = rights_table(16, &[&steps[..7], &steps[8..]].concat());
    for d in 0..16 {
        let expected = if d < 8 { 0..8 } else { 8..16 };
        assert_eq!(group(&parted, d), Vec::from_iter(expected));
    }
}

#[test]
fn strays_and_unknown_callers_are_from_no_group() {
    let table = rights_table(3, &[(0, 1, 1)]);
    let asks = |by| call_word(5, by, 0, 0, 0);
    let list = [asks(0), asks(1), asks(2), asks(3), asks(63), 0xF000_0000];
    let calls = cut(&list);
    let ours = [true, true, false, false, false, false];
    assert_eq!(from_group(&table, &calls, 0), ours);
    assert_eq!(from_group(&table, &calls, 1), ours);
    let ours = [false, false, true, false, false, false];
    assert_eq!(from_group(&table, &calls, 2), ours);
    // Unknown kinds and refused calls are their callers' like any other.
    let calls = cut(&[call_word(14, 0, 63, 255, 255), call_word(7, 0, 1, 0, 2)]);
    assert_eq!(from_group(&table, &calls, 1), [true, true]);
    assert_eq!(from_group(&table, &calls, 2), [false, false]);
}

/// How often what would make the rules empty was met.
#[derive(Default, Debug)]
struct Met {
    /// Runs from tables with more than one group, one of them of several domains.
    walled: usize,
    /// Influences that a list gave on domains of the same group.
    influences_given: usize,
    /// Grants across a wall, all of them refused.
    grants_across: usize,
    /// Calls of known domains struck that altered the table in the whole run.
    struck_and_altering: usize,
    /// Domains whose kept calls leave another table than the whole list.
    tables_differing: usize,
}

/// The first rule, for every table of a run.
fn walls_stay(seed: u64, start: &[u32], list: &[u32], met: &mut Met) {
    let n = domains(start);
    let groups: Vec<BTreeSet<usize>> = (0..n).map(|d| component(start, d)).collect();
    let tables = tables_before(start, &cut(list));
    for now in &tables {
        for (u, v) in pairs(n) {
            assert!(
                !influences(now, u, v) || groups[u].contains(&v),
                "a wall is open: domain {u} influences {v}, {}",
                shown(seed, start, list)
            );
        }
    }
    let several = groups.iter().any(|group| group.len() > 1);
    met.walled += usize::from(several && groups[0].len() < n);
    for both in tables.windows(2) {
        let given =
            |&(u, v): &(usize, usize)| !influences(&both[0], u, v) && influences(&both[1], u, v);
        met.influences_given += pairs(n).filter(given).count();
    }
}

fn pairs(n: usize) -> impl Iterator<Item = (usize, usize)> {
    (0..n * n).map(move |pair| (pair / n, pair % n))
}

/// The second rule, for every domain.
fn views_are_equal(seed: u64, start: &[u32], list: &[u32], met: &mut Met) {
    let calls = cut(list);
    let whole = run_from(start, list);
    assert_eq!(whole.code, 0, "{}", shown(seed, start, list));
    let tables = tables_before(start, &calls);
    for d in 0..domains(start) {
        let kept = from_group(start, &calls, d);
        let (of_whole, of_kept, left) = both_views(start, &calls, &whole, &kept, d);
        assert!(
            of_whole == of_kept,
            "the views of domain {d} differ, {}\nwhole {of_whole:X?}\nkept {of_kept:X?}",
            shown(seed, start, list)
        );
        met.tables_differing += usize::from(left != whole.table);
        met.struck_and_altering += (0..calls.len())
            .filter(|&i| !kept[i] && tables[i] != tables[i + 1])
            .count();
    }
}

/// Counts the grants whose caller and recipient are of two groups.
fn count_grants_across(start: &[u32], calls: &[Call], met: &mut Met) {
    let n = domains(start);
    let mut now = start.to_vec();
    for call in calls {
        let code = code_of(&step(&mut now, call));
        let recipient = call.b() as usize;
        if call.kind() == 6 && code == 23 && recipient < n {
            let caller = call.caller().unwrap_or(0) as usize;
            met.grants_across += usize::from(!component(start, caller).contains(&recipient));
        }
    }
}

fn search(seeds: std::ops::Range<u64>, max_n: usize, max_m: usize, max_words: usize) -> Met {
    let mut met = Met::default();
    for seed in seeds {
        let rng = &mut Rng::new(seed);
        let start = if rng.chance(1, 2) {
            walled_table(rng, max_n, max_m)
        } else {
            table(rng, max_n, max_m)
        };
        let list = list(rng, &start, max_words);
        walls_stay(seed, &start, &list, &mut met);
        views_are_equal(seed, &start, &list, &mut met);
        count_grants_across(&start, &cut(&list), &mut met);
    }
    met
}

#[test]
fn walls_stay_on_small_tables() {
    let met = search(0..2000, 6, 4, 30);
    assert!(met.walled > 500, "{met:?}");
    assert!(met.influences_given > 100, "{met:?}");
    assert!(met.grants_across > 250, "{met:?}");
    assert!(met.struck_and_altering > 6_000, "{met:?}");
    assert!(met.tables_differing > 1_500, "{met:?}");
}

/// Any size of table.
#[test]
fn walls_stay_on_large_tables() {
    let met = search(0..40, 16, 32, 120);
    assert!(met.walled > 10 && met.influences_given > 10, "{met:?}");
    assert!(met.struck_and_altering > 1_000, "{met:?}");
}
