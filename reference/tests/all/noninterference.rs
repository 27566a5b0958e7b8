//! Noninterference (document 01: the striking rule) over random tables and lists:
//! for every domain, what it sees of the run of the whole list is what it sees
//! of the machine's run of the kept calls alone.

use crate::support::{both_views, code_of, run_from, shown};
use reference::generate::{list, table, Rng};
use reference::influence::tables_before;
use reference::{cut, influences, purge, sources, step, Call};

/// How often what would make the property empty was met.
#[derive(Default)]
struct Met {
    kept: usize,
    struck: usize,
    /// Struck calls that altered the table in the whole run.
    struck_and_altering: usize,
    grants: usize,
    removes: usize,
    revokes: usize,
    /// Revokes that are done of rights that the holder doesn't all have.
    revokes_of_missing: usize,
    full_sends: usize,
    /// Members of a first set that had no right on the domain at the start.
    indirect_members: usize,
    /// Domains whose kept calls leave another table than the whole list.
    tables_differing: usize,
}

/// The property for every domain of a table.
fn views_are_equal(seed: u64, table: &[u32], list: &[u32], met: &mut Met) {
    let calls = cut(list);
    let whole = run_from(table, list);
    assert_eq!(whole.code, 0, "{}", shown(seed, table, list));
    for d in 0..reference::table::domains(table) {
        let kept = purge(table, &calls, d);
        let (of_whole, of_kept, left) = both_views(table, &calls, &whole, &kept, d);
        assert!(
            of_whole == of_kept,
            "the views of domain {d} differ, {}\nwhole {of_whole:X?}\nkept {of_kept:X?}",
            shown(seed, table, list)
        );
        met.tables_differing += usize::from(left != whole.table);
        count_domain(table, &calls, d, met);
    }
    count_calls(table, &calls, met);
}

fn count_domain(table: &[u32], calls: &[Call], d: usize, met: &mut Met) {
    let tables = tables_before(table, calls);
    for (i, keep) in purge(table, calls, d).into_iter().enumerate() {
        met.kept += usize::from(keep);
        met.struck += usize::from(!keep);
        met.struck_and_altering += usize::from(!keep && tables[i] != tables[i + 1]);
    }
    met.indirect_members += sources(table, calls, d)[0]
        .iter()
        .filter(|&&member| !influences(table, member, d))
        .count();
}

fn count_calls(table: &[u32], calls: &[Call], met: &mut Met) {
    let mut now = table.to_vec();
    for call in calls {
        let before = now.clone();
        let done = code_of(&step(&mut now, call)) == 0;
        let altered = now != before;
        met.grants += usize::from(call.kind() == 6 && altered);
        met.removes += usize::from(call.kind() == 7 && altered);
        met.revokes += usize::from(call.kind() == 8 && altered);
        met.revokes_of_missing += usize::from(
            call.kind() == 8 && done && {
                let (target, holder) = (call.a() as usize, call.b() as usize);
                call.c() & !reference::table::rights(&before, holder, target) != 0
            },
        );
        let endpoint = call.b() as usize;
        met.full_sends += usize::from(
            call.kind() == 2
                && done
                && reference::table::waiting(&before, endpoint)
                    == reference::table::waiting(&now, endpoint),
        );
    }
}

fn search(seeds: std::ops::Range<u64>, max_n: usize, max_m: usize, max_words: usize) -> Met {
    let mut met = Met::default();
    for seed in seeds {
        let rng = &mut Rng::new(seed);
        let table = table(rng, max_n, max_m);
        let list = list(rng, &table, max_words);
        views_are_equal(seed, &table, &list, &mut met);
    }
    met
}

/// Few domains and endpoints, so that calls often meet.
#[test]
fn views_are_equal_on_small_tables() {
    let met = search(0..5000, 4, 3, 24);
    assert!(met.kept > 40_000, "kept {}", met.kept);
    assert!(met.struck > 20_000, "struck {}", met.struck);
    let altering = met.struck_and_altering;
    assert!(altering > 4_000, "struck and altering {altering}");
    assert!(met.grants > 1_000, "grants {}", met.grants);
    assert!(met.removes > 1_000, "removes {}", met.removes);
    assert!(met.revokes > 1_000, "revokes {}", met.revokes);
    let missing = met.revokes_of_missing;
    assert!(missing > 300, "revokes of rights not held {missing}");
    assert!(met.full_sends > 1_000, "full sends {}", met.full_sends);
    let indirect = met.indirect_members;
    assert!(indirect > 500, "indirect members {indirect}");
    let differing = met.tables_differing;
    assert!(differing > 1_500, "tables differing {differing}");
}

/// Any size of table.
#[test]
fn views_are_equal_on_large_tables() {
    let met = search(0..60, 16, 32, 120);
    assert!(met.kept > 5_000 && met.struck > 2_000);
    assert!(met.grants > 50 && met.removes > 50 && met.revokes > 50);
}
