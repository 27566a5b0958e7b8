//! Calls of small numbers back to back: every one of them directly after every other, and
//! every two names of which some are there and some are not.

use reference::calls::{Call, LOOK_UP, SEND, STRAY};
use reference::generate::call_word;
use reference::table::right;
use reference::words::{word, CONTENT_MAX};

use super::bits::calls_of;
use super::tables::{spread, Shape};
use super::{Tables, Take};
use crate::judging::exercise::planner::{
    grant, look_up, my_endpoints, my_rights, receive, remove, revoke, send,
};

/// Names below this are looked up one after another; the table has every third of them.
const NAMES: u32 = 40;

/// The sets of rights that the calls name: none, two, all, and one past them.
const SETS: [u32; 5] = [0, right::SEND, right::GRANT, right::ALL, right::ALL + 1];

/// The drill.
pub fn neighbours(_: &Tables, take: &mut Take) {
    two_names(take);
    let tables = [right::ALL, right::ALL & !right::GRANT].map(|set| of_small_names(2, set));
    let calls = small_calls();
    for table in &tables {
        for (first, second) in calls.iter().flat_map(|f| calls.iter().map(move |s| (f, s))) {
            calls_of(table, [*first, *second], take);
        }
    }
}

/// A table whose names are small numbers, with these rights for everyone on everyone.
fn of_small_names(m: usize, set: u32) -> Vec<u32> {
    let mut shape = Shape::new(2, m).with_rights(|_, _| set);
    for (e, queue) in shape.queues.iter_mut().enumerate() {
        queue.name = 3 * e as u32 + 2;
        queue.capacity = 1 + e % 2;
        queue.messages = (0..e % 2).map(spread).collect();
    }
    shape.words()
}

/// Every two small names, one after the other, on tables that have few of them and many.
fn two_names(take: &mut Take) {
    for m in [2, 6, 12] {
        let table = of_small_names(m, 0);
        for (one, other) in (0..NAMES).flat_map(|one| (0..NAMES).map(move |other| (one, other))) {
            calls_of(&table, [look_up(0, one), look_up(1, other)], take);
        }
    }
}

/// Calls of every kind of which each number is small: some are done, and of others a number
/// is one too large; and a stray of all bits.
fn small_calls() -> Vec<Call> {
    let lone = |kind: u32| Call {
        first: call_word(kind, 0, 0, 0, 0),
        second: None,
    };
    let mut calls: Vec<Call> = [0, LOOK_UP, SEND, 9, 14, STRAY].map(lone).to_vec();
    calls.push(Call {
        first: word(STRAY, CONTENT_MAX),
        second: None,
    });
    for caller in 0..=2 {
        calls.extend([my_endpoints(caller), my_rights(caller)]);
        calls.extend((0..=3).map(|name| look_up(caller, name)));
        for e in 0..=2 {
            calls.extend([send(caller, e, caller as u32), receive(caller, e)]);
        }
    }
    for (caller, target) in (0..6).map(|both| (both / 3, both % 3)) {
        calls.extend(SETS.map(|set| remove(caller, target, set)));
        for other in 0..=2 {
            calls.extend(SETS.map(|set| grant(caller, target, other, set)));
            calls.extend(SETS.map(|set| revoke(caller, target, other, set)));
        }
    }
    calls
}
