//! Bringing back a table from a worn card (document 02, request (k)): a table that is
//! refused with 4 or 5 is made fit again without ever adding a right.
//!
//! A broken rights word becomes the empty set, and an endpoint with a broken waiting,
//! lost or slot word gets an empty queue and lost 0. Header, length, names and infos
//! say what the other words are; where one of them is wrong nothing is repaired.

use crate::table::{
    a_name_repeats, domains, endpoint_words, endpoint_words_mut, endpoints, header_is_right,
    length, name_and_info_are_right, queue_is_right, rights_word_is_right, LOST, LOST_PLACE,
    RIGHTS, SLOTS_PLACE, WAITING, WAITING_PLACE,
};
use crate::words::{word, EMPTY_SLOT};

/// The words that tell of one altered word: its place from 0 and its old content.
pub const PAIR_WORDS: usize = 2;

/// Repairs a table: (0, the number of words altered), with a pair for each of them in
/// the list, lowest place first, and the list past the pairs as it was; or, with table
/// and list as they were, (33, 0), or else (34, 0) where the list is too short.
pub fn repair(table: &mut [u32], list: &mut [u32]) -> (u32, u32) {
    if !can_be_repaired(table) {
        return (33, 0);
    }
    let sound = repaired(table);
    let pairs = pairs(table, &sound);
    if list.len() < pairs.len() {
        return (34, 0);
    }
    list[..pairs.len()].copy_from_slice(&pairs);
    table.copy_from_slice(&sound);
    (0, (pairs.len() / PAIR_WORDS) as u32)
}

/// Puts the old contents back from the pairs of a repair, and from nothing else of its
/// list. A pair whose place isn't in the table is passed over.
pub fn undo(table: &mut [u32], pairs: &[u32]) {
    for pair in pairs.chunks_exact(PAIR_WORDS) {
        if let Some(altered) = table.get_mut(pair[0] as usize) {
            *altered = pair[1];
        }
    }
}

/// Whether the header, the length, every name and every info are right and no name
/// repeats.
fn can_be_repaired(table: &[u32]) -> bool {
    !table.is_empty()
        && header_is_right(table[0])
        && table.len() == length(table[0])
        && (0..endpoints(table))
            .all(|e| name_and_info_are_right(endpoint_words(table, e), domains(table)))
        && !a_name_repeats(table)
}

/// The table made fit again.
fn repaired(table: &[u32]) -> Vec<u32> {
    let mut sound = table.to_vec();
    let n = domains(table);
    for rights_word in &mut sound[1..1 + n * n] {
        if !rights_word_is_right(*rights_word) {
            *rights_word = word(RIGHTS, 0);
        }
    }
    for e in 0..endpoints(table) {
        if !queue_is_right(endpoint_words(table, e)) {
            empty(endpoint_words_mut(&mut sound, e));
        }
    }
    sound
}

/// Gives an endpoint an empty queue and lost 0.
fn empty(endpoint: &mut [u32]) {
    endpoint[WAITING_PLACE] = word(WAITING, 0);
    endpoint[LOST_PLACE] = word(LOST, 0);
    endpoint[SLOTS_PLACE..].fill(EMPTY_SLOT);
}

/// A pair for each word that differs. A word of an emptied endpoint that was right
/// already is not altered.
fn pairs(old: &[u32], new: &[u32]) -> Vec<u32> {
    (0..old.len())
        .filter(|&place| old[place] != new[place])
        .flat_map(|place| [place as u32, old[place]])
        .collect()
}
