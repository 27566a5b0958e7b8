//! Inputs for the end-of-shift sheet.

use super::{damaged_table, list, table, wild_word, Rng};
use crate::calls::{cut, LIST_WORDS_MAX};
use crate::entry::{run, ANSWER_WORDS};
use crate::table::TABLE_WORDS_MAX;
use crate::totals::LISTS_MAX;
use crate::words::to_bytes;

/// The most that an input has.
#[derive(Debug, Clone, Copy)]
pub struct Limits {
    pub domains: usize,
    pub endpoints: usize,
    pub lists: usize,
    /// The words of one list; now and then one is about as long as a list can be.
    pub words: usize,
}

/// An input for the sheet, now and then one that is refused. Now and then it has about
/// as many lists as there can be, nearly all of them empty.
pub fn totals_input(rng: &mut Rng, most: Limits) -> Vec<u8> {
    let mut now = if rng.chance(1, 12) {
        damaged_table(rng, most.domains, most.endpoints).0
    } else {
        table(rng, most.domains, most.endpoints)
    };
    let mut input = to_bytes(&[table_length(rng, now.len())]);
    input.extend(to_bytes(&now));
    let lists = rng.size(0, most.lists);
    for _ in 0..lists {
        let list = next_list(rng, &mut now, most.words);
        input.extend(to_bytes(&[list_length(rng, list.len())]));
        input.extend(to_bytes(&list));
    }
    if rng.chance(1, 128) {
        let empty = LISTS_MAX - lists - 1 + rng.below(3);
        input.extend(to_bytes(&vec![0; empty]));
    }
    match rng.below(16) {
        0 | 1 => input.truncate(rng.between(0, input.len())),
        2 | 3 => input.extend(vec![0; rng.between(1, 3)]),
        4 => input.extend(to_bytes(&[
            rng.size(LIST_WORDS_MAX + 1, u32::MAX as usize) as u32
        ])),
        _ => {}
    }
    input
}

fn table_length(rng: &mut Rng, length: usize) -> u32 {
    match rng.below(32) {
        0 => rng.size(0, TABLE_WORDS_MAX) as u32,
        1 => rng.size(TABLE_WORDS_MAX + 1, u32::MAX as usize) as u32,
        _ => length as u32,
    }
}

/// A list's length word, now and then a wrong one.
fn list_length(rng: &mut Rng, length: usize) -> u32 {
    match rng.below(64) {
        0 => rng.size(0, LIST_WORDS_MAX) as u32,
        1 => rng.size(LIST_WORDS_MAX + 1, u32::MAX as usize) as u32,
        _ => length as u32,
    }
}

/// A list for the table that the lists before it leave.
fn next_list(rng: &mut Rng, now: &mut [u32], max_words: usize) -> Vec<u32> {
    let mut list = list(rng, now, max_words);
    if rng.chance(1, 64) {
        let length = LIST_WORDS_MAX - 1 + rng.below(3);
        list.resize_with(length, || wild_word(rng));
    }
    let mut answers = vec![0; ANSWER_WORDS * cut(&list).len()];
    run(now, &list, &mut answers);
    list
}
