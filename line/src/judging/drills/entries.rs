//! The refusals of the entry in every combination: a list that is too long, a table that
//! breaks its layout in one place or in several, too little answer space and other than n
//! words for the holders.

use reference::calls::{cut, LIST_WORDS_MAX, MY_RIGHTS};
use reference::entry::ANSWER_WORDS;
use reference::generate::call_word;
use reference::table::{
    domains, endpoint_place, endpoints, DOMAINS_MAX, ENDPOINTS_MAX, INFO_PLACE, LOST_PLACE,
    NAME_PLACE, WAITING_PLACE,
};

use super::sizes::lent;
use super::{Given, Tables, Take};
use crate::cases::Case;

/// What is done to a table, where anything is.
pub type Damage = fn(&mut Vec<u32>);

/// Word 0 as it is, with another kind, with a bit of its spare ones, with no domain, with
/// one too many, and with one endpoint too many; and no table at all.
const HEADERS: [Damage; 8] = [
    |_| {},
    |table| table[0] ^= 1 << 28,
    |table| table[0] |= 1 << 16,
    |table| table[0] |= 1 << 27,
    |table| table[0] &= !0xFF00,
    |table| table[0] = table[0] & !0xFF00 | (DOMAINS_MAX as u32 + 1) << 8,
    |table| table[0] = table[0] & !0xFF | (ENDPOINTS_MAX as u32 + 1),
    |table| table.clear(),
];

/// The length as it is, with a word more or less, and with an endpoint's words more.
const LENGTHS: [Damage; 4] = [
    |_| {},
    |table| table.push(0xF000_0000),
    |table| table.truncate(table.len().saturating_sub(1)),
    |table| table.extend([0xF000_0000; 12]),
];

/// The rights as they are, the first one with another kind, one with the bit past them.
const RIGHTS: [Damage; 3] = [
    |_| {},
    |table| alter(table, 1, 3 << 28),
    |table| alter(table, 1, 1 << 4),
];

/// The last endpoint as it is, or with one of its words broken.
const ENDPOINTS: [Damage; 6] = [
    |_| {},
    |table| at_last_endpoint(table, NAME_PLACE, |_| 0x3000_0000),
    |table| at_last_endpoint(table, INFO_PLACE, |word| word | 0xFF00),
    |table| at_last_endpoint(table, INFO_PLACE, |word| word & !0xFF),
    |table| at_last_endpoint(table, WAITING_PLACE, |_| 0x5000_0009),
    |table| at_last_endpoint(table, LOST_PLACE, |word| word ^ 1 << 28),
];

fn alter(table: &mut [u32], place: usize, bits: u32) {
    if let Some(word) = table.get_mut(place) {
        *word ^= bits;
    }
}

fn at_last_endpoint(table: &mut [u32], at: usize, with: fn(u32) -> u32) {
    if table.is_empty() || endpoints(table) == 0 {
        return;
    }
    let place = endpoint_place(table, endpoints(table) - 1) + at;
    if let Some(word) = table.get_mut(place) {
        *word = with(*word);
    }
}

/// Each damage that is one, to be done alone.
pub fn single_damages() -> impl Iterator<Item = &'static Damage> {
    let all = [&HEADERS[..], &LENGTHS, &RIGHTS, &ENDPOINTS];
    all.into_iter().flat_map(|damages| &damages[1..])
}

/// A table with a damage.
pub fn with_damage(table: &[u32], damage: &Damage) -> Vec<u32> {
    let mut table = table.to_vec();
    damage(&mut table);
    table
}

/// The drill, on the line's table and on two others.
pub fn entries(tables: &Tables, take: &mut Take) {
    for table in tables.few() {
        for damaged in damaged(table) {
            for words in [0, 5, LIST_WORDS_MAX + 1] {
                spaces(&damaged, table, words, take);
            }
        }
    }
}

/// A table with each damage of its endpoints, its rights, its length and its header, from
/// the last to the first, so that what is looked up in the table is still there.
fn damaged(table: &[u32]) -> Vec<Vec<u32>> {
    let mut all = vec![table.to_vec()];
    for damages in [&ENDPOINTS[..], &RIGHTS, &LENGTHS, &HEADERS] {
        let with = |table: &Vec<u32>| {
            let each = damages.iter().map(|damage| with_damage(table, damage));
            each.collect::<Vec<_>>()
        };
        all = all.iter().flat_map(with).collect();
    }
    all
}

/// A table with a list of so many words: with the answer space that it needs, one word less
/// and none, and with as many words for the holders as there must be, one less, one more
/// and none.
fn spaces(table: &[u32], sound: &[u32], words: usize, take: &mut Take) {
    let list = vec![call_word(MY_RIGHTS, 0, 0, 0, 0); words];
    let enough = ANSWER_WORDS * cut(&list).len();
    let n = domains(sound);
    for space in [enough, enough.saturating_sub(1), 0] {
        for holders in [n, n - 1, n + 1, 0] {
            take(Given::Run(Case {
                table: table.to_vec(),
                ..lent(sound, &list, space, holders)
            }));
        }
    }
}
