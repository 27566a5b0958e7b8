//! Every bit of every field, alone and beside a lawful rest: of calls that are done, of each
//! caller, and of every word of a table; and the numbers of a table's words from 0 on.

use reference::calls::{Call, STRAY};
use reference::generate::call_word;
use reference::machine::refusal;
use reference::table::{
    domains, endpoint_place, endpoints, name, right, rights, DOMAINS_MAX, HEADER, INFO, INFO_PLACE,
    SLOTS, SLOTS_PLACE, WAITING, WAITING_PLACE,
};
use reference::words::word;

use super::tables::{spread, Shape};
use super::{Given, Tables, Take};
use crate::judging::exercise::planner::{
    grant, look_up, my_endpoints, my_rights, receive, remove, revoke, send,
};
use crate::judging::variants::case_of;
use crate::text::input::Input;

/// So many calls of one kind have each of their bits turned on one table.
const OF_A_KIND: usize = 6;

/// A run of some words on a table.
pub fn run_of(table: &[u32], list: Vec<u32>, take: &mut Take) {
    let table = table.to_vec();
    take(Given::Run(case_of(&Input { table, list })));
}

/// A run of some calls on a table.
pub fn calls_of(table: &[u32], calls: impl IntoIterator<Item = Call>, take: &mut Take) {
    let words = calls.into_iter().flat_map(|call| call.words());
    run_of(table, words.collect(), take);
}

/// The drill of calls: each bit of each word of calls that are done turned, each caller in
/// its place, and each name with each of its bits turned.
pub fn calls(tables: &Tables, take: &mut Take) {
    for table in tables.all() {
        for call in done(table) {
            turned(table, call, take);
        }
        for e in 0..endpoints(table) {
            let call = look_up(e % domains(table), name(table, e));
            for bit in 0..28 {
                let second = call.second.map(|second| second ^ 1 << bit);
                run_of(table, Call { second, ..call }.words(), take);
            }
        }
    }
}

fn turned(table: &[u32], call: Call, take: &mut Take) {
    for bit in 0..32 {
        let first = call.first ^ 1 << bit;
        run_of(table, Call { first, ..call }.words(), take);
        if let Some(second) = call.second {
            run_of(table, vec![call.first, second ^ 1 << bit], take);
        }
    }
    for caller in 0..64 {
        let first = call.first & !(63 << 22) | caller << 22;
        run_of(table, Call { first, ..call }.words(), take);
    }
}

/// Some calls of each kind that are done on a table, from both ends of its numbers.
pub fn done(table: &[u32]) -> Vec<Call> {
    let mut found = Vec::new();
    for calls in candidates(table) {
        let done: Vec<Call> = calls
            .into_iter()
            .filter(|call| refusal(table, call).is_none())
            .collect();
        let first = done.iter().take(OF_A_KIND / 2);
        let last = done.iter().skip(OF_A_KIND / 2).rev().take(OF_A_KIND / 2);
        found.extend(first.chain(last).copied());
    }
    found
}

/// Calls of each kind that may be done: by each domain on each endpoint or domain.
fn candidates(table: &[u32]) -> [Vec<Call>; 8] {
    let (n, m) = (domains(table), endpoints(table));
    let with = |count: usize, call: &dyn Fn(usize, usize) -> Call| -> Vec<Call> {
        let all = (0..n).flat_map(|caller| (0..count).map(move |other| (caller, other)));
        all.map(|(caller, other)| call(caller, other)).collect()
    };
    let held = |caller, target| rights(table, caller, target);
    [
        with(m, &|caller, e| look_up(caller, name(table, e))),
        with(m, &|caller, e| send(caller, e, spread(e))),
        with(m, &receive),
        with(1, &|caller, _| my_endpoints(caller)),
        with(1, &|caller, _| my_rights(caller)),
        with(n, &|caller, target| {
            grant(caller, target, caller, held(caller, target))
        }),
        with(n, &|caller, target| {
            remove(caller, target, held(caller, target))
        }),
        with(n, &|caller, target| {
            revoke(caller, target, caller, right::ALL)
        }),
    ]
}

/// A list that asks everybody for everything, and everything of every queue.
pub fn ask_all(table: &[u32]) -> Vec<u32> {
    let n = domains(table).clamp(1, 16);
    let asked = (0..n).flat_map(|caller| [my_rights(caller), my_endpoints(caller)]);
    let of_queues = (0..endpoints(table).min(32)).flat_map(|e| {
        let caller = e % n;
        [send(caller, e, spread(e)), receive(caller, e)]
    });
    asked
        .chain(of_queues)
        .flat_map(|call| call.words())
        .collect()
}

/// The drill of tables: each bit of each word of the line's table, of a small one and of
/// the largest turned.
pub fn tables(tables: &Tables, take: &mut Take) {
    for table in tables.few() {
        let list = ask_all(table);
        for place in 0..table.len() {
            for bit in 0..32 {
                let mut table = table.to_vec();
                table[place] ^= 1 << bit;
                run_of(&table, list.clone(), take);
            }
        }
    }
}

/// The drill of numbers: each header, each owner and capacity, each waiting count with each
/// capacity, and each slot with something in it at each waiting count.
pub fn numbers(_: &Tables, take: &mut Take) {
    headers(take);
    for n in 1..=DOMAINS_MAX {
        let table = Shape::new(n, 2).words();
        let place = endpoint_place(&table, 1) + INFO_PLACE;
        for number in 0..256 {
            for info in [number << 8 | 8, number, number << 8 | number] {
                altered(&table, place, word(INFO, info), take);
            }
        }
    }
    for capacity in 1..=SLOTS {
        waiting_counts(capacity, take);
    }
}

/// Each pair of numbers in word 0, alone; and each size that is allowed with its table, and
/// with a word more and less.
fn headers(take: &mut Take) {
    for sizes in 0..=0xFFFF {
        let table = [word(HEADER, sizes)];
        let list = call_word(STRAY, 0, 0, 0, 0);
        run_of(&table, vec![list], take);
    }
    for (n, m) in (1..=16).flat_map(|n| (0..=32).map(move |m| (n, m))) {
        let mut table = Shape::new(n, m).words();
        let list = my_rights(n - 1).words();
        run_of(&table, list.clone(), take);
        table.push(0xF000_0000);
        run_of(&table, list.clone(), take);
        table.truncate(table.len() - 2);
        run_of(&table, list, take);
    }
}

fn altered(table: &[u32], place: usize, with: u32, take: &mut Take) {
    let mut table = table.to_vec();
    table[place] = with;
    run_of(&table, ask_all(&table), take);
}

/// A queue of a capacity with each waiting count, and with each bit of each slot turned.
fn waiting_counts(capacity: usize, take: &mut Take) {
    let mut shape = Shape::new(1, 1);
    shape.queues[0].capacity = capacity;
    let empty = shape.words();
    let queue = endpoint_place(&empty, 0);
    for waits in 0..300 {
        altered(&empty, queue + WAITING_PLACE, word(WAITING, waits), take);
    }
    for waits in 0..=capacity {
        shape.queues[0].messages = (0..waits).map(spread).collect();
        let table = shape.words();
        for (slot, bit) in (0..SLOTS).flat_map(|slot| (0..32).map(move |bit| (slot, bit))) {
            let place = queue + SLOTS_PLACE + slot;
            altered(&table, place, table[place] ^ 1 << bit, take);
        }
    }
}

#[cfg(test)]
mod tests {
    use super::*;
    use reference::calls::{cut, LOOK_UP, REVOKE};
    use reference::example::TABLE_T;

    #[test]
    fn calls_of_every_kind_are_done_on_the_tables() {
        let tables = Tables::with(&TABLE_T);
        for kind in LOOK_UP..=REVOKE {
            let any = tables
                .all()
                .any(|table| done(table).iter().any(|call| call.kind() == kind));
            assert!(any, "{kind}");
        }
        assert_eq!(cut(&ask_all(&TABLE_T)).len(), 2 * 3 + 2 * 2);
    }
}
