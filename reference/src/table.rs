//! The table's layout and its check, codes 2 to 5 (document 01, "The table"
//! and "Where each number is checked").
//!
//! Word 0, then n × n rights words, then 12 words for each endpoint.

use crate::words::{bits, content, kind, EMPTY_SLOT};

/// The kinds of the words of a table.
pub const HEADER: u32 = 1;
pub const RIGHTS: u32 = 2;
pub const NAME: u32 = 3;
pub const INFO: u32 = 4;
pub const WAITING: u32 = 5;
pub const LOST: u32 = 6;
pub const MESSAGE: u32 = 15;

/// The most that a table can have.
pub const DOMAINS_MAX: usize = 16;
pub const ENDPOINTS_MAX: usize = 32;
pub const TABLE_WORDS_MAX: usize = 641;

/// The words of one endpoint, and where each stands among them.
pub const ENDPOINT_WORDS: usize = 12;
pub const NAME_PLACE: usize = 0;
pub const INFO_PLACE: usize = 1;
pub const WAITING_PLACE: usize = 2;
pub const LOST_PLACE: usize = 3;
pub const SLOTS_PLACE: usize = 4;
pub const SLOTS: usize = 8;

/// The four rights, each one bit of a set. REVOKE is of document 02, request (i).
pub mod right {
    pub const SEND: u32 = 1;
    pub const GRANT: u32 = 2;
    pub const REMOVE: u32 = 4;
    pub const REVOKE: u32 = 8;
    /// All four together, the largest set.
    pub const ALL: u32 = 15;
    /// One by one.
    pub const EACH: [u32; 4] = [SEND, GRANT, REMOVE, REVOKE];
}

/// n, the number of domains.
pub fn domains(table: &[u32]) -> usize {
    bits(table[0], 15, 8) as usize
}

/// m, the number of endpoints.
pub fn endpoints(table: &[u32]) -> usize {
    bits(table[0], 7, 0) as usize
}

/// Where the word of the holder's rights on the target stands.
pub fn rights_place(table: &[u32], holder: usize, target: usize) -> usize {
    1 + holder * domains(table) + target
}

/// The set of rights that the holder has on the target.
pub fn rights(table: &[u32], holder: usize, target: usize) -> u32 {
    bits(table[rights_place(table, holder, target)], 3, 0)
}

/// Where the twelve words of an endpoint start.
pub fn endpoint_place(table: &[u32], endpoint: usize) -> usize {
    1 + domains(table) * domains(table) + ENDPOINT_WORDS * endpoint
}

/// The twelve words of an endpoint.
pub fn endpoint_words(table: &[u32], endpoint: usize) -> &[u32] {
    let place = endpoint_place(table, endpoint);
    &table[place..place + ENDPOINT_WORDS]
}

/// The same, to be written.
pub fn endpoint_words_mut(table: &mut [u32], endpoint: usize) -> &mut [u32; ENDPOINT_WORDS] {
    let place = endpoint_place(table, endpoint);
    let words = &mut table[place..place + ENDPOINT_WORDS];
    words.try_into().expect("twelve words")
}

pub fn name(table: &[u32], endpoint: usize) -> u32 {
    content(endpoint_words(table, endpoint)[NAME_PLACE])
}

pub fn owner(table: &[u32], endpoint: usize) -> usize {
    bits(endpoint_words(table, endpoint)[INFO_PLACE], 15, 8) as usize
}

pub fn capacity(table: &[u32], endpoint: usize) -> usize {
    bits(endpoint_words(table, endpoint)[INFO_PLACE], 7, 0) as usize
}

pub fn waiting(table: &[u32], endpoint: usize) -> usize {
    content(endpoint_words(table, endpoint)[WAITING_PLACE]) as usize
}

pub fn lost(table: &[u32], endpoint: usize) -> u32 {
    content(endpoint_words(table, endpoint)[LOST_PLACE])
}

/// The check of a table: 0 when it is accepted, otherwise 2, 3, 4 or 5.
pub fn check_table(table: &[u32]) -> u32 {
    if table.is_empty() || !header_is_right(table[0]) {
        return 2;
    }
    if table.len() != length(table[0]) {
        return 3;
    }
    if !rights_words_are_right(table) {
        return 4;
    }
    if !endpoints_are_right(table) || a_name_repeats(table) {
        return 5;
    }
    0
}

/// Whether word 0 keeps its layout.
pub fn header_is_right(header: u32) -> bool {
    kind(header) == HEADER
        && bits(header, 27, 16) == 0
        && (1..=DOMAINS_MAX as u32).contains(&bits(header, 15, 8))
        && bits(header, 7, 0) <= ENDPOINTS_MAX as u32
}

/// The length in words that word 0 calls for: 1 + n × n + 12 × m.
pub fn length(header: u32) -> usize {
    let n = bits(header, 15, 8) as usize;
    let m = bits(header, 7, 0) as usize;
    1 + n * n + ENDPOINT_WORDS * m
}

fn rights_words_are_right(table: &[u32]) -> bool {
    let n = domains(table);
    table[1..1 + n * n]
        .iter()
        .all(|&word| rights_word_is_right(word))
}

pub(crate) fn rights_word_is_right(word: u32) -> bool {
    kind(word) == RIGHTS && bits(word, 27, 4) == 0
}

fn endpoints_are_right(table: &[u32]) -> bool {
    (0..endpoints(table)).all(|e| endpoint_is_right(endpoint_words(table, e), domains(table)))
}

/// Whether twelve words keep an endpoint's layout in a table of n domains.
fn endpoint_is_right(words: &[u32], n: usize) -> bool {
    name_and_info_are_right(words, n) && queue_is_right(words)
}

/// Whether the two words of an endpoint that never change keep their layout.
pub(crate) fn name_and_info_are_right(words: &[u32], n: usize) -> bool {
    name_is_right(words[NAME_PLACE]) && info_is_right(words[INFO_PLACE], n)
}

/// Whether the other ten do, for the capacity that the info has.
pub(crate) fn queue_is_right(words: &[u32]) -> bool {
    waiting_is_right(words[WAITING_PLACE], bits(words[INFO_PLACE], 7, 0))
        && kind(words[LOST_PLACE]) == LOST
        && slots_are_right(&words[SLOTS_PLACE..], content(words[WAITING_PLACE]))
}

fn name_is_right(word: u32) -> bool {
    kind(word) == NAME && content(word) != 0
}

fn info_is_right(word: u32, n: usize) -> bool {
    kind(word) == INFO
        && bits(word, 27, 16) == 0
        && (bits(word, 15, 8) as usize) < n
        && (1..=SLOTS as u32).contains(&bits(word, 7, 0))
}

fn waiting_is_right(word: u32, capacity: u32) -> bool {
    kind(word) == WAITING && content(word) <= capacity
}

/// Whether each of the eight slots is a message, and empty from the waiting
/// count on.
fn slots_are_right(slots: &[u32], waiting: u32) -> bool {
    slots.iter().enumerate().all(|(place, &word)| {
        if place < waiting as usize {
            kind(word) == MESSAGE
        } else {
            word == EMPTY_SLOT
        }
    })
}

pub(crate) fn a_name_repeats(table: &[u32]) -> bool {
    (0..endpoints(table)).any(|e| (0..e).any(|other| name(table, other) == name(table, e)))
}
