//! The fields of calls at their edges in every combination, so that any two refusals of one
//! kind of call are asked for at once and their order shows.

use std::collections::BTreeSet;

use reference::calls::{
    Call, GRANT, LOOK_UP, MY_ENDPOINTS, MY_RIGHTS, RECEIVE, REMOVE, REVOKE, SEND, STRAY,
};
use reference::generate::call_word;
use reference::machine::refusal;
use reference::table::{domains, endpoints, name};
use reference::words::{word, CONTENT_MAX};

use super::bits::run_of;
use super::{Tables, Take};

/// The widths of the fields A, B and C.
pub const A_BITS: u32 = 6;
pub const B_BITS: u32 = 8;
pub const C_BITS: u32 = 8;

/// So many words of refused calls are put into one list.
const TOGETHER: usize = 240;

/// The numbers that a field of so many bits is given: 0, those around each power of two,
/// those around a bound, and the largest.
fn edges(bits: u32, bound: usize) -> Vec<usize> {
    let most = (1 << bits) - 1;
    let powers = (0..bits).map(|bit| 1usize << bit);
    let around = |number: usize| [number.saturating_sub(1), number, number + 1];
    let all = powers.chain([bound, most]).flat_map(around);
    let all: BTreeSet<usize> = all.chain([0]).filter(|&number| number <= most).collect();
    all.into_iter().collect()
}

/// A few numbers of an unused field: none, its lowest bit, its highest and all.
fn unused(bits: u32) -> Vec<usize> {
    vec![0, 1, 1 << (bits - 1), (1 << bits) - 1]
}

/// Callers at their edges: the first ones, the last one and those that are no domain.
fn callers(n: usize) -> Vec<usize> {
    let all = BTreeSet::from([0, 1.min(n - 1), n - 1, n, 63]);
    all.into_iter().collect()
}

/// The sets that a call names: every one that is a set of rights, and those past them.
fn sets(n: usize) -> Vec<usize> {
    let some = [
        0, 1, 2, 4, 5, 8, 11, 15, 16, 17, 31, 32, 64, 128, 136, 240, 255,
    ];
    let more = (0..=17).filter(|_| n < 8);
    let all: BTreeSet<usize> = some.into_iter().chain(more).collect();
    all.into_iter().collect()
}

/// The combinations of a kind of call on a table, each as a call.
fn combinations(table: &[u32], kind: u32) -> Vec<Call> {
    let (n, m) = (domains(table), endpoints(table));
    let (a, b, c) = match kind {
        SEND | RECEIVE => (unused(A_BITS), edges(B_BITS, m), unused(C_BITS)),
        GRANT | REVOKE => (edges(A_BITS, n), edges(B_BITS, n), sets(n)),
        REMOVE => (edges(A_BITS, n), unused(B_BITS), sets(n)),
        _ => (unused(A_BITS), unused(B_BITS), unused(C_BITS)),
    };
    let seconds = seconds(table, kind);
    let mut calls = Vec::new();
    for caller in callers(n) {
        for (&a, &b) in a.iter().flat_map(|a| b.iter().map(move |b| (a, b))) {
            for &c in &c {
                let first = call_word(kind, caller, a, b, c as u32);
                calls.extend(seconds.iter().map(|&second| Call { first, second }));
            }
        }
    }
    calls
}

/// What may follow a first word: nothing, and for a look up or a send a second word.
fn seconds(table: &[u32], kind: u32) -> Vec<Option<u32>> {
    let known = (0..endpoints(table)).map(|e| name(table, e)).next();
    let names = known.into_iter().chain([0, CONTENT_MAX, 1 << 27]);
    match kind {
        LOOK_UP => [None]
            .into_iter()
            .chain(names.map(|name| Some(word(STRAY, name))))
            .collect(),
        SEND => vec![None, Some(word(STRAY, 0x0ABC_DEF1))],
        _ => vec![None],
    }
}

/// The drill: every combination on every table. Calls that are refused go into lists
/// together; one that is done is a list alone.
pub fn calls(tables: &Tables, take: &mut Take) {
    for table in tables.all() {
        for kind in 0..=STRAY {
            let (refused, done): (Vec<Call>, Vec<Call>) = combinations(table, kind)
                .into_iter()
                .partition(|call| refusal(table, call).is_some());
            together(table, &refused, take);
            for call in done {
                run_of(table, call.words(), take);
            }
        }
    }
}

/// Refused calls, some in one list, with a call in between where two would join.
fn together(table: &[u32], calls: &[Call], take: &mut Take) {
    let mut list = Vec::new();
    for call in calls {
        list.extend(call.words());
        list.push(call_word(MY_RIGHTS, 0, 0, 0, 0));
        if list.len() >= TOGETHER {
            run_of(table, std::mem::take(&mut list), take);
        }
    }
    run_of(table, list, take);
}

/// The places where a kind of call can fail, in their order.
fn places(kind: u32) -> &'static [u32] {
    match kind {
        LOOK_UP => &[12, 13, 14, 15],
        SEND => &[12, 13, 14, 16, 17],
        RECEIVE => &[12, 13, 16, 18, 19],
        MY_ENDPOINTS | MY_RIGHTS => &[12, 13],
        GRANT | REVOKE => &[12, 20, 21, 22, 23],
        REMOVE => &[12, 13, 20, 21, 22],
        _ => &[],
    }
}

/// Pairs of places that can't fail at once, each with the reason.
const NEVER_BOTH: [(u32, u32, u32, &str); 5] = [
    (LOOK_UP, 14, 15, "without a second word there is no name"),
    (SEND, 16, 17, "an endpoint that isn't there has no owner"),
    (RECEIVE, 16, 18, "an endpoint that isn't there has no owner"),
    (RECEIVE, 16, 19, "an endpoint that isn't there has no queue"),
    (
        REMOVE,
        20,
        22,
        "nobody has a right on a domain that isn't there",
    ),
];

/// All pairs of places of a kind of call.
fn pairs(kind: u32) -> Vec<(u32, u32)> {
    let places = places(kind);
    let later = |at: usize| places[at + 1..].iter().map(move |&b| (places[at], b));
    (0..places.len()).flat_map(later).collect()
}

/// How many pairs are asked for, and which can't be.
pub fn in_words() -> String {
    let all: usize = (LOOK_UP..=REVOKE).map(|kind| pairs(kind).len()).sum();
    let never = NEVER_BOTH.map(|(kind, a, b, why)| format!("{a} and {b} of kind {kind}: {why}"));
    format!(
        "two refusals of one call at once: {} pairs by {} kinds; never both: {}",
        all - never.len(),
        REVOKE,
        never.join("; ")
    )
}

#[cfg(test)]
mod tests {
    use super::*;
    use reference::example::TABLE_T;
    use reference::table::{owner, right, rights, waiting};

    /// Whether a call fails at a place, looked at alone.
    fn fails(table: &[u32], call: &Call, place: u32) -> bool {
        let (n, m) = (domains(table), endpoints(table));
        let caller = call.caller().unwrap_or(0) as usize;
        let (a, b, c) = (call.a() as usize, call.b() as usize, call.c());
        let held = |target: usize| match caller < n {
            true => rights(table, caller, target),
            false => 0,
        };
        let needed = match call.kind() {
            GRANT => right::GRANT | c,
            REMOVE => right::REMOVE | c,
            _ => right::REVOKE,
        };
        match place {
            12 => caller >= n,
            13 => call.first & unused_bits(call.kind()) != 0,
            14 => call.second.is_none(),
            15 => call
                .second_content()
                .is_some_and(|x| (0..m).all(|e| name(table, e) != x)),
            16 => b >= m,
            17 => b < m && held(owner(table, b)) & right::SEND == 0,
            18 => b < m && owner(table, b) != caller,
            19 => b < m && waiting(table, b) == 0,
            20 => a >= n || call.kind() != REMOVE && b >= n,
            21 => c == 0 || c > right::ALL,
            22 => a < n && held(a) & needed != needed,
            _ => b < n && caller != b && held(b) == 0,
        }
    }

    /// The bits of a first word that a kind of call doesn't use.
    fn unused_bits(kind: u32) -> u32 {
        match kind {
            LOOK_UP | MY_ENDPOINTS | MY_RIGHTS => 0x003F_FFFF,
            SEND | RECEIVE => 0x003F_00FF,
            REMOVE => 0x0000_FF00,
            _ => 0,
        }
    }

    /// The pairs of places of one kind of call at which a call of the drill fails at once.
    fn pairs_shown(tables: &Tables) -> BTreeSet<(u32, u32, u32)> {
        let mut shown = BTreeSet::new();
        for table in tables.all() {
            for kind in LOOK_UP..=REVOKE {
                let pairs = pairs(kind);
                for call in combinations(table, kind) {
                    let both = pairs
                        .iter()
                        .filter(|(a, b)| fails(table, &call, *a) && fails(table, &call, *b));
                    shown.extend(both.map(|&(a, b)| (kind, a, b)));
                }
            }
        }
        shown
    }

    #[test]
    fn every_pair_of_refusals_is_asked_for_or_cannot_be() {
        let shown = pairs_shown(&Tables::with(&TABLE_T));
        for kind in LOOK_UP..=REVOKE {
            for (a, b) in pairs(kind) {
                let never = NEVER_BOTH
                    .iter()
                    .any(|no| (no.0, no.1, no.2) == (kind, a, b));
                assert_eq!(
                    shown.contains(&(kind, a, b)),
                    !never,
                    "kind {kind}, {a} and {b}"
                );
            }
        }
    }

    #[test]
    fn the_first_place_that_fails_is_the_refusal() {
        for table in Tables::with(&TABLE_T).all() {
            for kind in LOOK_UP..=REVOKE {
                for call in combinations(table, kind) {
                    let first = places(kind)
                        .iter()
                        .find(|&&place| fails(table, &call, place));
                    assert_eq!(first.copied(), refusal(table, &call), "{call:X?}");
                }
            }
        }
    }
}
