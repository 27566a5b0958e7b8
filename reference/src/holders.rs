//! The panel's words (document 02, request (h)): beside the table stands one word a
//! domain, in which bit h is set when domain h has any right on it. From the words the
//! panel asks who can reach a domain.

use crate::calls::{Call, LIST_WORDS_MAX};
use crate::entry::run;
use crate::machine::step;
use crate::table::{check_table, domains, rights, DOMAINS_MAX};

/// The panel's words as an accepted table has them, worked out afresh.
pub fn holders(table: &[u32]) -> Vec<u32> {
    (0..domains(table)).map(|d| holders_of(table, d)).collect()
}

fn holders_of(table: &[u32], target: usize) -> u32 {
    (0..domains(table))
        .filter(|&holder| rights(table, holder, target) != 0)
        .fold(0, |word, holder| word | (1 << holder))
}

/// The run of a list that is lent the panel's words too: code 6 also if they are other
/// than n. Whatever they held, a run leaves what its last table says; an entry refusal
/// leaves them as they were.
pub fn run_with_holders(
    table: &mut [u32],
    list: &[u32],
    answers: &mut [u32],
    panel: &mut [u32],
) -> (u32, u32) {
    if list.len() <= LIST_WORDS_MAX && check_table(table) == 0 && panel.len() != domains(table) {
        return (6, 0);
    }
    let (code, calls) = run(table, list, answers);
    if code == 0 {
        panel.copy_from_slice(&holders(table));
    }
    (code, calls)
}

/// A run of one call: its three answer words, or a refusal by the table's 2 to 5 or
/// then 6, as above, with table and panel as they were.
pub fn step_with_holders(
    table: &mut [u32],
    call: &Call,
    panel: &mut [u32],
) -> Result<[u32; 3], u32> {
    let code = check_table(table);
    if code != 0 {
        return Err(code);
    }
    if panel.len() != domains(table) {
        return Err(6);
    }
    let answer = step(table, call);
    panel.copy_from_slice(&holders(table));
    Ok(answer)
}

/// Who can reach a domain: (0, the set of every domain with a chain of rights to it, of
/// any length, itself included), bit h for domain h; or (32, no domain) where the words
/// aren't a panel's or the domain isn't one of theirs.
pub fn who_reaches(words: &[u32], domain: u32) -> (u32, u32) {
    if !are_a_panels(words) || domain as usize >= words.len() {
        return (32, 0);
    }
    let mut set = 1 << domain;
    // A chain from one domain to another needs fewer rights than there are domains.
    for _ in 1..words.len() {
        set = one_right_further(words, set);
    }
    (0, set)
}

/// Whether there are 1 to 16 words and none has a bit from their number on.
fn are_a_panels(words: &[u32]) -> bool {
    (1..=DOMAINS_MAX).contains(&words.len()) && words.iter().all(|word| word >> words.len() == 0)
}

/// The domains of a set and those that have a right on one of them.
fn one_right_further(words: &[u32], set: u32) -> u32 {
    (0..words.len())
        .filter(|&d| set & (1 << d) != 0)
        .fold(set, |further, d| further | words[d])
}
