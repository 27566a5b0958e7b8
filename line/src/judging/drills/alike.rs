//! Damage in two places of one table and in more: the same in each, so that a check which
//! gathers what is wrong by an exclusive or, by a sum or in a count of few bits shows; two
//! words exchanged, which leaves every sum as it is; and each kind of damage of an endpoint
//! beside each other one.

use reference::table::{
    domains, endpoint_place, endpoints, ENDPOINT_WORDS, INFO_PLACE, LOST_PLACE, NAME_PLACE, SLOTS,
    SLOTS_PLACE, WAITING_PLACE,
};
use reference::words::{content, kind, word};

use super::bits::{ask_all, run_of};
use super::tables::{spread, Shape};
use super::{Tables, Take};

/// The drill: every two words of a small table, then words of one kind on the line's table
/// and on two others, then every two kinds of damage.
pub fn alike(tables: &Tables, take: &mut Take) {
    let small = started(2, 2);
    for (first, second) in pairs(small.len()) {
        for bit in 0..32 {
            turned(&small, &[first, second], bit, take);
        }
        exchanged(&small, first, second, take);
    }
    for table in tables.few() {
        for places in of_a_kind(table) {
            at_distances(table, &places, take);
            many(table, &places, take);
        }
    }
    for m in [1, 2, 7] {
        two_damages(&started(2, m), take);
    }
}

/// A table whose queues hold six and have something waiting.
fn started(n: usize, m: usize) -> Vec<u32> {
    let mut shape = Shape::new(n, m).with_rights(|holder, target| (holder + 2 * target) as u32);
    for (e, queue) in shape.queues.iter_mut().enumerate() {
        queue.capacity = 6;
        queue.messages = (0..1 + e % 6).map(spread).collect();
    }
    shape.words()
}

/// Every two of so many.
fn pairs(count: usize) -> impl Iterator<Item = (usize, usize)> {
    (0..count).flat_map(|second| (0..second).map(move |first| (first, second)))
}

/// One bit turned in each of these places.
fn turned(table: &[u32], places: &[usize], bit: usize, take: &mut Take) {
    let list = ask_all(table);
    let mut table = table.to_vec();
    for &place in places {
        table[place] ^= 1 << bit;
    }
    run_of(&table, list, take);
}

/// A sound table, then the same with two of its words exchanged, and with what one of them
/// has besides its kind in the other.
fn exchanged(table: &[u32], first: usize, second: usize, take: &mut Take) {
    let list = ask_all(table);
    run_of(table, list.clone(), take);
    let mut other = table.to_vec();
    other.swap(first, second);
    run_of(&other, list.clone(), take);
    for (from, to) in [(first, second), (second, first)] {
        let mut other = table.to_vec();
        other[to] = word(kind(table[to]), content(table[from]));
        run_of(&other, list.clone(), take);
    }
}

/// The places of a table that have words of one kind: its rights, and each word of its
/// endpoints.
fn of_a_kind(table: &[u32]) -> Vec<Vec<usize>> {
    let first = endpoint_place(table, 0);
    let of_endpoints = |at: usize| (first + at..table.len()).step_by(ENDPOINT_WORDS).collect();
    let mut places: Vec<Vec<usize>> = vec![(1..first).collect()];
    places.extend((0..ENDPOINT_WORDS).map(of_endpoints));
    places
}

/// The powers of two that are no larger.
fn powers(most: usize) -> impl Iterator<Item = usize> {
    (0..usize::BITS)
        .map(|bit| 1 << bit)
        .take_while(move |&power| power <= most)
}

/// Every two places that are a power of two apart, with one bit turned in both, another one
/// by turns.
fn at_distances(table: &[u32], places: &[usize], take: &mut Take) {
    let mut turn = 0;
    for apart in powers(places.len().saturating_sub(1)) {
        for (first, second) in places.iter().zip(&places[apart..]) {
            turned(table, &[*first, *second], turn % 32, take);
            turn += 1;
        }
    }
}

/// The first places, as many as each power of two and all of them, with each bit turned in
/// each.
fn many(table: &[u32], places: &[usize], take: &mut Take) {
    for count in powers(places.len()).chain([places.len()]) {
        for bit in 0..32 {
            turned(table, &places[..count], bit, take);
        }
    }
}

/// A word of an endpoint that is damaged, and what it is then on a table of n domains.
type Damage = (usize, fn(u32, u32) -> u32);

/// The kinds of damage of an endpoint: each word with another kind by its lowest bit, and
/// each number that it may not have.
const DAMAGES: [Damage; 13] = [
    (NAME_PLACE, |word, _| word ^ 1 << 28),
    (NAME_PLACE, |word, _| word & !0x0FFF_FFFF),
    (INFO_PLACE, |word, _| word ^ 1 << 28),
    (INFO_PLACE, |word, _| word ^ 1 << 16),
    (INFO_PLACE, |word, n| word & !0xFF00 | n << 8),
    (INFO_PLACE, |word, _| word & !0xFF),
    (INFO_PLACE, |word, _| word & !0xFF | (SLOTS as u32 + 1)),
    (WAITING_PLACE, |word, _| word ^ 1 << 28),
    (WAITING_PLACE, |word, _| {
        word & !0x0FFF_FFFF | (SLOTS as u32 - 1)
    }),
    (LOST_PLACE, |word, _| word ^ 1 << 28),
    (SLOTS_PLACE, |word, _| word ^ 1 << 28),
    (SLOTS_PLACE + SLOTS - 1, |word, _| word ^ 1 << 28),
    (SLOTS_PLACE + SLOTS - 1, |word, _| word ^ 1),
];

/// Each kind of damage at one of the first two endpoints with each at either.
fn two_damages(table: &[u32], take: &mut Take) {
    let of = |e: usize| DAMAGES.iter().map(move |damage| (e, damage));
    let all: Vec<(usize, &Damage)> = (0..endpoints(table).min(2)).flat_map(of).collect();
    let (n, list) = (domains(table) as u32, ask_all(table));
    for (first, second) in pairs(all.len()) {
        let mut table = table.to_vec();
        for (e, (at, with)) in [all[first], all[second]] {
            let place = endpoint_place(&table, e) + at;
            table[place] = with(table[place], n);
        }
        run_of(&table, list.clone(), take);
    }
}

#[cfg(test)]
mod tests {
    use super::*;
    use reference::table::check_table;

    #[test]
    fn each_damage_alone_is_refused() {
        let sound = started(2, 2);
        assert_eq!(check_table(&sound), 0);
        for (number, (at, with)) in DAMAGES.iter().enumerate() {
            let mut table = sound.clone();
            let place = endpoint_place(&table, 1) + at;
            table[place] = with(table[place], 2);
            assert_eq!(check_table(&table), 5, "damage {number}");
        }
    }

    #[test]
    fn the_places_of_all_kinds_are_the_table_but_its_header() {
        let table = started(3, 4);
        let mut places = of_a_kind(&table).concat();
        places.sort();
        assert_eq!(places, (1..table.len()).collect::<Vec<_>>());
        assert_eq!(powers(9).collect::<Vec<_>>(), [1, 2, 4, 8]);
        assert_eq!(pairs(3).collect::<Vec<_>>(), [(0, 1), (0, 2), (1, 2)]);
    }
}
