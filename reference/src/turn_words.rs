//! What is kept between turns (document 02, request (m)) as words that a caller lends, the
//! way the C functions take it: the place first, then for each domain, lowest number first,
//! how many of its words are pending and sixteen words, of which the first so many are
//! pending, oldest first.
//!
//! No paper has this layout: it is that of the C header. Any words will do. A count above
//! 16 is read as 16, from a place that no domain has a turn goes round to 0 at once, and
//! words from a count on are never looked at. What isn't served or handed in stays as it
//! is, word for word.

use crate::entry::ANSWER_WORDS;
use crate::holders::holders;
use crate::table::{check_table, domains, DOMAINS_MAX};
use crate::turns::{Turn, Turns, PENDING_WORDS};

/// The words of one domain: the count and those that can be pending.
pub const DOMAIN_WORDS: usize = 1 + PENDING_WORDS;

/// What is answered where other than [`length`] words are lent, behind what the papers
/// tell without them and before 37 and 6 for an answer. No paper uses the number.
pub const WRONG_LENGTH: u32 = 99;

/// How many words are to be lent for n domains.
pub const fn length(n: usize) -> usize {
    1 + DOMAIN_WORDS * n
}

/// Begins with nothing pending, the first turn of all starts at 0, and the panel's words
/// are what the table says: 0, or a refusal that changes nothing.
pub fn begin(table: &[u32], state: &mut [u32], panel: &mut [u32]) -> u32 {
    let code = check_table(table);
    if code != 0 {
        return code;
    }
    if panel.len() != domains(table) {
        return 6;
    }
    if state.len() != length(domains(table)) {
        return WRONG_LENGTH;
    }
    state.fill(0);
    panel.copy_from_slice(&holders(table));
    0
}

/// Hands in the words of a call for a domain: 0, or a refusal that changes nothing.
pub fn hand_in(table: &[u32], state: &mut [u32], domain: u32, words: &[u32]) -> u32 {
    let Some(before) = kept(table, state) else {
        // One call can be handed in where nothing is pending, so 37 isn't told.
        let code = Turns::begin().hand_in(table, domain, words);
        return if code == 0 { WRONG_LENGTH } else { code };
    };
    let mut after = before.clone();
    let code = after.hand_in(table, domain, words);
    put_back(state, &before, &after, domains(table));
    code
}

/// A turn: its code and how many calls it served, one or none. The answer of a call that
/// is served stands in the first three words of the answer space; with fewer a turn that
/// has a call to serve is refused with 6, the last of its refusals.
pub fn turn(
    table: &mut [u32],
    state: &mut [u32],
    panel: &mut [u32],
    space: &mut [u32],
) -> (u32, u32) {
    let Some(before) = kept(table, state) else {
        // With nothing pending a turn that isn't refused is idle.
        let turned = Turns::begin().turn(table, panel);
        return (turned.err().unwrap_or(WRONG_LENGTH), 0);
    };
    let (mut after, mut new_table, mut new_panel) =
        (before.clone(), table.to_vec(), panel.to_vec());
    let turned = after.turn(&mut new_table, &mut new_panel);
    if matches!(turned, Ok(Turn::Served { .. })) && space.len() < ANSWER_WORDS {
        return (6, 0);
    }
    table.copy_from_slice(&new_table);
    panel.copy_from_slice(&new_panel);
    put_back(state, &before, &after, domains(table));
    match turned {
        Err(code) => (code, 0),
        Ok(Turn::Idle) => (0, 0),
        Ok(Turn::Served { answer, .. }) => {
            space[..ANSWER_WORDS].copy_from_slice(&answer);
            (0, 1)
        }
    }
}

/// What words say is kept, where there are as many as the table asks for.
pub fn kept(table: &[u32], state: &[u32]) -> Option<Turns> {
    if check_table(table) != 0 || state.len() != length(domains(table)) {
        return None;
    }
    let mut pending: [Vec<u32>; DOMAINS_MAX] = Default::default();
    for (domain, words) in pending.iter_mut().enumerate().take(domains(table)) {
        *words = pending_words(&state[place_of(domain)..place_of(domain + 1)]).to_vec();
    }
    Some(Turns::kept(pending, state[0] as usize))
}

/// Where the words of a domain begin.
fn place_of(domain: usize) -> usize {
    length(domain)
}

/// The words that are pending of a domain.
fn pending_words(own: &[u32]) -> &[u32] {
    let count = (own[0] as usize).min(PENDING_WORDS);
    &own[1..1 + count]
}

/// Writes what has changed; everything else stays.
fn put_back(state: &mut [u32], before: &Turns, after: &Turns, n: usize) {
    if before.place() != after.place() {
        state[0] = after.place() as u32;
    }
    for domain in 0..n {
        let pending = after.pending(domain);
        if before.pending(domain) != pending {
            let own = &mut state[place_of(domain)..place_of(domain + 1)];
            own[0] = pending.len() as u32;
            own[1..1 + pending.len()].copy_from_slice(pending);
        }
    }
}
