//! A run that is wrong, cut down: as few calls as still show it, on a table without the
//! endpoints, domains, messages, lost counts and rights that it doesn't take.

use std::time::{Duration, Instant};

use reference::calls::{cut, Call, GRANT, RECEIVE, REMOVE, REVOKE, SEND};
use reference::check_table;
use reference::table::{
    domains, endpoint_place, endpoints, lost, owner, rights_place, waiting, ENDPOINT_WORDS, HEADER,
    INFO_PLACE, LOST, LOST_PLACE, SLOTS, SLOTS_PLACE, WAITING_PLACE,
};
use reference::words::{word, EMPTY_SLOT};

use crate::cases::Case;

/// How long fewer parts are tried; in tests, which want the fewest on a busy machine too,
/// longer.
const TIME: Duration = Duration::from_secs(if cfg!(test) { 120 } else { 5 });

/// So many tries in a row that leave nothing out are enough: where it is the number of calls
/// that is wrong, none can be left out.
const IN_VAIN: usize = 1000;

/// Where a call's caller and its fields A and B begin.
const CALLER: u32 = 22;
const A: u32 = 16;
const B: u32 = 8;

/// What a run is cut down in: its calls, or its table too, where it is nobody's own.
#[derive(Debug, Clone, Copy, PartialEq, Eq)]
pub enum Cut {
    Calls,
    TableToo,
}

/// A run with as few calls as still differ, on as small a table where that is asked for.
pub fn shrink(case: &Case, down: Cut, differs: impl Fn(&Case) -> bool) -> Case {
    let fewer = |case: &Case| {
        let with = |calls: &[Call]| Case {
            list: calls.iter().flat_map(Call::words).collect(),
            ..case.clone()
        };
        with(&fewest(&cut(&case.list), |calls| differs(&with(calls))))
    };
    let short = fewer(case);
    match down {
        Cut::Calls => short,
        Cut::TableToo => fewer(&on_less(&short, &differs)),
    }
}

/// Leaves out parts, many at a time and then one by one, as long as the rest still
/// differs. What doesn't differ is given back as it is.
pub fn fewest<T: Clone>(all: &[T], differs: impl Fn(&[T]) -> bool) -> Vec<T> {
    let mut parts = all.to_vec();
    let began = Instant::now();
    let mut in_vain = 0;
    let mut at_a_time = parts.len().div_ceil(2).max(1);
    loop {
        let mut start = 0;
        while start < parts.len() && in_vain < IN_VAIN && began.elapsed() < TIME {
            let end = (start + at_a_time).min(parts.len());
            let rest = [&parts[..start], &parts[end..]].concat();
            if differs(&rest) {
                parts = rest;
                in_vain = 0;
            } else {
                start = end;
                in_vain += 1;
            }
        }
        if at_a_time == 1 || in_vain == IN_VAIN || began.elapsed() >= TIME {
            return parts;
        }
        at_a_time = at_a_time.div_ceil(2);
    }
}

/// Something of a table that can be left out: how many there are, and the run without
/// the one at a place, where it can be.
type Part = (fn(&[u32]) -> usize, fn(&Case, usize) -> Option<Case>);

/// What takes most of a table with it comes first.
const PARTS: [Part; 5] = [
    (endpoints, without_endpoint),
    (domains, without_domain),
    (|table| endpoints(table) * SLOTS, without_message),
    (endpoints, without_lost),
    (|table| 4 * domains(table) * domains(table), without_right),
];

/// The run on as small a table as still differs. Only accepted tables are cut down: in
/// others nobody knows which word is what.
fn on_less(case: &Case, differs: impl Fn(&Case) -> bool) -> Case {
    let mut best = case.clone();
    if check_table(&best.table) != 0 {
        return best;
    }
    let began = Instant::now();
    for (count, without) in PARTS {
        // From the last on, so that those before it keep their places.
        for place in (0..count(&best.table)).rev() {
            let tried = without(&best, place).filter(|_| began.elapsed() < TIME);
            best = tried.filter(|tried| differs(tried)).unwrap_or(best);
        }
    }
    best
}

/// The calls of a list with their first words altered.
fn followed(list: &[u32], alter: impl Fn(&Call) -> u32) -> Vec<u32> {
    let calls = cut(list).into_iter().map(|call| Call {
        first: alter(&call),
        ..call
    });
    calls.flat_map(|call| call.words()).collect()
}

/// What to take from a call's first word where the numbers above one move down: one in
/// the field that begins at a bit, where its number is above.
fn down(number: u32, gone: usize, bit: u32) -> u32 {
    u32::from(number as usize > gone) << bit
}

fn without_endpoint(case: &Case, gone: usize) -> Option<Case> {
    let mut table = case.table.clone();
    let place = endpoint_place(&table, gone);
    table.drain(place..place + ENDPOINT_WORDS);
    table[0] -= 1;
    let list = followed(&case.list, |call| match call.kind() {
        SEND | RECEIVE => call.first - down(call.b(), gone, B),
        _ => call.first,
    });
    Some(Case {
        list,
        ..on(case, table)
    })
}

/// The same run on another table.
fn on(case: &Case, table: Vec<u32>) -> Case {
    Case {
        table,
        ..case.clone()
    }
}

/// Nothing where it is the only domain or owns an endpoint.
fn without_domain(case: &Case, gone: usize) -> Option<Case> {
    let (n, m) = (domains(&case.table), endpoints(&case.table));
    if n == 1 || (0..m).any(|endpoint| owner(&case.table, endpoint) == gone) {
        return None;
    }
    let mut table = vec![word(HEADER, ((n - 1) << 8 | m) as u32)];
    let kept = |domain: &usize| *domain != gone;
    for holder in (0..n).filter(kept) {
        let row = (0..n).filter(kept);
        table.extend(row.map(|target| case.table[rights_place(&case.table, holder, target)]));
    }
    table.extend(&case.table[1 + n * n..]);
    for endpoint in 0..m {
        let info = endpoint_place(&table, endpoint) + INFO_PLACE;
        table[info] -= down(owner(&table, endpoint) as u32, gone, 8);
    }
    let mut holders = case.holders.clone();
    if holders.len() == n {
        holders.remove(gone);
    }
    Some(Case {
        list: followed(&case.list, |call| call.first - domains_down(call, gone)),
        holders,
        ..on(case, table)
    })
}

/// What to take from a call's first word where the domains above one move down.
fn domains_down(call: &Call, gone: usize) -> u32 {
    let caller = call.caller().map_or(0, |caller| down(caller, gone, CALLER));
    caller
        + match call.kind() {
            GRANT | REVOKE => down(call.a(), gone, A) + down(call.b(), gone, B),
            REMOVE => down(call.a(), gone, A),
            _ => 0,
        }
}

/// The others move up. Nothing where fewer wait.
fn without_message(case: &Case, place: usize) -> Option<Case> {
    let (endpoint, number) = (place / SLOTS, place % SLOTS);
    if number >= waiting(&case.table, endpoint) {
        return None;
    }
    let mut table = case.table.clone();
    let queue = endpoint_place(&table, endpoint);
    table[queue + WAITING_PLACE] -= 1;
    let slots = &mut table[queue + SLOTS_PLACE..][..SLOTS];
    slots.copy_within(number + 1.., number);
    slots[SLOTS - 1] = EMPTY_SLOT;
    Some(on(case, table))
}

fn without_lost(case: &Case, endpoint: usize) -> Option<Case> {
    let mut table = case.table.clone();
    let place = endpoint_place(&table, endpoint) + LOST_PLACE;
    table[place] = word(LOST, 0);
    (lost(&case.table, endpoint) > 0).then(|| on(case, table))
}

/// Nothing where the holder hasn't got it.
fn without_right(case: &Case, place: usize) -> Option<Case> {
    let mut table = case.table.clone();
    let (rights, right) = (1 + place / 4, 1 << (place % 4));
    let held = table[rights] & right != 0;
    table[rights] &= !right;
    held.then(|| on(case, table))
}

#[cfg(test)]
mod tests {
    use super::*;
    use crate::cases::tables::{open_table, second};
    use crate::judging::variants::case_of;
    use crate::text::input::Input;
    use reference::generate::call_word;
    use reference::table::{name, rights};
    use reference::words::bits;
    use std::cell::Cell;

    /// Four domains with every right, endpoints 101 to 104, of which the third has three
    /// messages waiting and has lost five.
    fn case() -> Case {
        let (mut table, _) = open_table(4, 4);
        let queue = endpoint_place(&table, 2);
        table[queue + WAITING_PLACE] += 3;
        table[queue + LOST_PLACE] += 5;
        for number in 0..3 {
            table[queue + SLOTS_PLACE + number] = second(70 + number as u32);
        }
        Case {
            table,
            list: vec![
                call_word(SEND, 3, 0, 3, 0),
                second(9),
                call_word(GRANT, 3, 1, 2, 1),
                call_word(RECEIVE, 2, 0, 2, 0),
            ],
            answers: vec![7; 12],
            holders: vec![7; 4],
        }
    }

    /// The codes that the reference answers with.
    fn codes(case: &Case) -> Option<Vec<u32>> {
        let (mut table, mut answers) = (case.table.clone(), case.answers.clone());
        let mut holders = case.holders.clone();
        let (code, calls) =
            reference::run_with_holders(&mut table, &case.list, &mut answers, &mut holders);
        let answers = answers.chunks(3).take(calls as usize);
        (code == 0).then(|| answers.map(|answer| bits(answer[0], 15, 0)).collect())
    }

    #[test]
    fn tries_in_vain_end_and_one_part_of_many_is_found() {
        let all: Vec<u32> = (0..5000).collect();
        let tried = Cell::new(0);
        let number_alone = |rest: &[u32]| {
            tried.set(tried.get() + 1);
            rest.len() == all.len()
        };
        assert_eq!(fewest(&all, number_alone), all);
        assert_eq!(tried.get(), IN_VAIN);
        assert_eq!(fewest(&all, |rest| rest.contains(&4321)), [4321]);
    }

    #[test]
    fn each_part_that_is_left_out_leaves_an_accepted_table() {
        let case = case();
        assert_eq!(codes(&case), Some(vec![0, 0, 0]));
        for (count, without) in PARTS {
            let tried = (0..count(&case.table)).filter_map(|place| without(&case, place));
            let tried: Vec<Case> = tried.collect();
            for smaller in &tried {
                assert_eq!(check_table(&smaller.table), 0, "{smaller:?}");
                assert_ne!(smaller, &case);
                assert!(codes(smaller).is_some());
            }
        }
        // Every domain owns an endpoint.
        assert_eq!(without_domain(&case, 1), None);
        let without = without_domain(&without_endpoint(&case, 1).unwrap(), 1).unwrap();
        assert_eq!(without.holders.len(), 3);
    }

    #[test]
    fn calls_follow_their_endpoints_and_domains() {
        let without = without_endpoint(&case(), 1).unwrap();
        assert_eq!(codes(&without), Some(vec![0, 0, 0]));
        assert_eq!(
            (name(&without.table, 1), name(&without.table, 2)),
            (103, 104)
        );
        assert_eq!(without.list[0], call_word(SEND, 3, 0, 2, 0));
        assert_eq!(without.list[3], call_word(RECEIVE, 2, 0, 1, 0));
        let without = without_domain(&without_endpoint(&case(), 0).unwrap(), 0).unwrap();
        assert_eq!(codes(&without), Some(vec![0, 0, 0]));
        assert_eq!(without.list[2], call_word(GRANT, 2, 0, 1, 1));
        assert_eq!(owner(&without.table, 1), 1);
    }

    #[test]
    fn what_it_takes_to_be_wrong_stays_and_nothing_else() {
        // Wrong where the domain that receives gets 71 out of a queue, after 70.
        let receives_second = |case: &Case| {
            let m = endpoints(&case.table);
            check_table(&case.table) == 0
                && (0..m).any(|endpoint| {
                    let queue = endpoint_place(&case.table, endpoint);
                    let slots = &case.table[queue + SLOTS_PLACE..][..2];
                    slots == [second(70), second(71)]
                        && rights(&case.table, owner(&case.table, endpoint), 0) & 4 != 0
                })
        };
        let smaller = on_less(&case(), receives_second);
        let table = &smaller.table;
        assert_eq!((domains(table), endpoints(table)), (1, 1));
        assert_eq!((waiting(table, 0), lost(table, 0)), (2, 0));
        assert_eq!((name(table, 0), rights(table, 0, 0)), (103, 4));
        assert_eq!(smaller.holders.len(), 1);
    }

    #[test]
    fn what_is_needed_stays_and_nothing_else() {
        let example = case_of(&Input::example());
        let has = |case: &Case, kind| cut(&case.list).iter().any(|call| call.kind() == kind);
        let smaller = shrink(&example, Cut::Calls, |case| has(case, 6) && has(case, 3));
        assert_eq!(smaller.list, [0x6042_0001, 0x3080_0100]);
        assert_eq!(smaller.table, example.table);
        assert_eq!(shrink(&example, Cut::TableToo, |_| false), example);
        let smallest = shrink(&example, Cut::TableToo, |_| true);
        assert_eq!((smallest.list, smallest.table.len()), (vec![], 2));
        let mut broken = case();
        broken.table[3] = 0;
        assert_eq!(on_less(&broken, |_| true), broken);
    }
}
