//! What happens to the turns of one table: domains hand in and turns come, now and then
//! with something that is refused, on a state that is now and then damaged.
//!
//! A history is made from the seed and its own number alone. Numbers go round the domains,
//! 1 to 16, so that each number of them is met.

use reference::calls::STRAY;
use reference::generate::{call_word, call_words, damaged_table, lent_panel, table_of, Rng};
use reference::table::{domains, endpoint_place, endpoints, DOMAINS_MAX};
use reference::turn_words::{length, DOMAIN_WORDS};
use reference::words::word;
use reference::{cut, Call};

use line::cases::random::rng_for;
use line::kernels::layer::{Event, Lent};

/// How often a history is so long that more is served than a list can have, and how many
/// events it has then.
const LONG_EVERY: u64 = 500;
const LONG: usize = 16_000;

/// The numbers of endpoints that tables are drawn with.
const ENDPOINTS: [usize; 6] = [0, 1, 2, 4, 8, 32];

/// A history as far as it has come.
pub struct History {
    rng: Rng,
    pub table: Vec<u32>,
    pub state: Vec<u32>,
    /// What the last event of its own left of the holders, where each is lent what the one
    /// before it left.
    pub holders: Vec<u32>,
    keeps: bool,
    /// Whether the holders are what a beginning that wasn't refused made them.
    pub shown: bool,
    /// Whether the state is one that beginning, handing in and turns make.
    pub proper: bool,
    /// Whether the state is damaged now and then.
    damages: bool,
    /// Of how many events one is a beginning, once the history has begun.
    begins: usize,
    /// How many of eight events are turns, for a while.
    turn_times: usize,
    /// How many events are still to come.
    left: usize,
}

/// The next event of a history, with what it is lent.
pub struct Next {
    pub lent: Lent,
    pub event: Event,
    /// Whether table and state are the history's own, which goes on with what is left.
    pub own: bool,
    /// Whether the holders are those that the event before it left.
    pub kept: bool,
}

/// The history of a number: a table, and a state of any words, which the first event
/// begins.
pub fn history(seed: u64, number: u64) -> History {
    let mut rng = rng_for(seed.rotate_left(16), number);
    let n = 1 + (number % DOMAINS_MAX as u64) as usize;
    let m = rng.pick(&ENDPOINTS);
    let table = table_of(&mut rng, n, m);
    let state = (0..length(n)).map(|_| rng.word()).collect();
    let long = number % LONG_EVERY == LONG_EVERY - 1;
    let damages = !long && rng.chance(1, 3);
    let left = rng.between(20, 40 + 12 * n);
    let holders = (0..n).map(|_| rng.word()).collect();
    let keeps = rng.chance(1, 2);
    History {
        rng,
        table,
        state,
        holders,
        keeps,
        shown: false,
        proper: false,
        damages,
        begins: if long { LONG * LONG } else { 128 },
        turn_times: 4,
        left: if long { LONG } else { left },
    }
}

impl History {
    /// The next event, unless the history is at its end.
    pub fn next(&mut self) -> Option<Next> {
        self.left = self.left.checked_sub(1)?;
        if self.proper && self.damages && self.rng.chance(1, 8) {
            self.proper = false;
        }
        if !self.proper && self.damages {
            damage(&mut self.rng, &mut self.state);
        }
        let event = self.event();
        let rng = &mut self.rng;
        let kept = self.keeps && rng.chance(15, 16);
        let mut lent = Lent {
            table: self.table.clone(),
            state: self.state.clone(),
            holders: match kept {
                true => self.holders.clone(),
                false if self.keeps => other_holders(rng, domains(&self.table)),
                false => holders_words(rng, domains(&self.table)),
            },
            answer: answer_words(rng),
        };
        let own = match rng.below(24) {
            0 => {
                lent.table = damaged(rng, &self.table);
                false
            }
            1 => {
                of_another_length(rng, &mut lent.state);
                false
            }
            _ => true,
        };
        Some(Next {
            lent,
            event,
            own,
            kept,
        })
    }

    /// A beginning where the state is any words, then turns and handing in; at times mostly
    /// the one and at times mostly the other, so that pending words fill and empty.
    fn event(&mut self) -> Event {
        let rng = &mut self.rng;
        let has_begun = self.proper || self.damages;
        if rng.chance(1, if has_begun { self.begins } else { 1 }) {
            return Event::Begin;
        }
        if rng.chance(1, 24) {
            self.turn_times = rng.pick(&[1, 1, 4, 7]);
        }
        match rng.chance(self.turn_times, 8) {
            true => Event::Turn,
            false => hand_in(rng, &self.table),
        }
    }
}

/// A call handed in by its caller; now and then for another, or with other words than
/// those of one call.
fn hand_in(rng: &mut Rng, table: &[u32]) -> Event {
    let n = domains(table) as u32;
    let mut domain = rng.below(n as usize) as u32;
    let mut words = call_of(rng, table, domain).words();
    match rng.below(48) {
        0 => domain = rng.below(n as usize) as u32,
        // The last has a caller's six bits in common with a domain.
        1 => domain = rng.pick(&[n, n + 1, 16, 63, u32::MAX, domain + 64]),
        2 => words.clear(),
        3 => words.push(word(STRAY, 0)),
        4 => words.extend(call_of(rng, table, domain).words()),
        5 => words.truncate(1),
        6 => words = vec![call_word(STRAY, domain as usize, 0, 0, 0)],
        7 => words.insert(0, word(STRAY, 7)),
        8 => words = (0..rng.below(20)).map(|_| rng.word()).collect(),
        _ => {}
    }
    Event::HandIn { domain, words }
}

/// A call of a domain, mostly one that does something if the domain can; else any call of
/// one word, which may be a look up or a send without its second word or an unknown kind.
fn call_of(rng: &mut Rng, table: &[u32], domain: u32) -> Call {
    let few = (0..4).map(|_| cut(&call_words(rng, table))[0]);
    let own = few.into_iter().find(|call| call.caller() == Some(domain));
    own.unwrap_or_else(|| {
        let kind = rng.pick(&[0, 1, 2, 2, 3, 4, 5, 9, 14]);
        Call {
            first: call_word(kind, domain as usize, 0, 0, 0),
            second: None,
        }
    })
}

/// Words for the holders, mostly n of them.
fn holders_words(rng: &mut Rng, n: usize) -> Vec<u32> {
    match rng.below(4) {
        0 => lent_panel(rng, n),
        _ => (0..n).map(|_| rng.word()).collect(),
    }
}

/// Words for the holders, one too many or one too few, which refuse an event that is lent
/// them.
fn other_holders(rng: &mut Rng, n: usize) -> Vec<u32> {
    let words = if rng.chance(1, 2) { n + 1 } else { n - 1 };
    (0..words).map(|_| rng.word()).collect()
}

/// Words for an answer, now and then too few.
fn answer_words(rng: &mut Rng) -> Vec<u32> {
    let words = match rng.below(16) {
        0 => rng.below(3),
        _ => rng.between(3, 5),
    };
    (0..words).map(|_| rng.word()).collect()
}

/// A table that is refused: the same one with one word or its length altered, or another.
fn damaged(rng: &mut Rng, table: &[u32]) -> Vec<u32> {
    let mut table = table.to_vec();
    match rng.below(5) {
        0 => table[0] |= 1 << rng.between(16, 27),
        1 => table.truncate(table.len() - 1),
        2 if endpoints(&table) > 0 => {
            let place = endpoint_place(&table, rng.below(endpoints(&table)));
            table[place + rng.below(4)] ^= 1 << 28;
        }
        3 => return damaged_table(rng, 16, 8).0,
        _ => table[1] |= 1 << rng.between(4, 27),
    }
    table
}

/// Makes a state longer or shorter, by a word or by a domain's, or of any length.
fn of_another_length(rng: &mut Rng, state: &mut Vec<u32>) {
    let old = state.len();
    let new = match rng.below(6) {
        0 => 0,
        1 => old - 1,
        2 => old + 1,
        3 => old - DOMAIN_WORDS,
        4 => old + DOMAIN_WORDS,
        _ => rng.below(300),
    };
    let longer = if new == old { old + 1 } else { new };
    state.resize_with(longer, || rng.word());
}

/// Puts something into a state that handing in and turns don't.
fn damage(rng: &mut Rng, state: &mut [u32]) {
    let n = (state.len() / DOMAIN_WORDS) as u32;
    let own = length(rng.below(n as usize));
    match rng.below(6) {
        0 => state[0] = rng.pick(&[0, 1, n - 1, n, n + 1, 16, 17, 63, u32::MAX]),
        1 => state[own] = rng.pick(&[1, 2, 15, 16, 17, 17, 255, u32::MAX]),
        2 => state[own + 1] = word(STRAY, 5),
        3 => {
            let place = own + rng.between(1, DOMAIN_WORDS - 1);
            state[place] = rng.word();
        }
        4 => state[own..own + DOMAIN_WORDS].fill_with(|| rng.word()),
        _ => {}
    }
}

#[cfg(test)]
mod tests {
    use super::*;

    #[test]
    fn a_number_gives_the_same_history_again() {
        let words = |seed, number| {
            let mut history = history(seed, number);
            let next = history.next().expect("a first event");
            (history.table, next.lent, next.event)
        };
        assert_eq!(words(3, 17), words(3, 17));
        assert_ne!(words(3, 17), words(4, 17));
    }

    #[test]
    fn damaged_tables_are_refused_and_other_lengths_differ() {
        for number in 0..2000 {
            let mut rng = rng_for(1, number);
            let table = table_of(&mut rng, 1 + number as usize % 16, 4);
            assert_ne!(reference::check_table(&damaged(&mut rng, &table)), 0);
            let right = length(domains(&table));
            let mut state = vec![0; right];
            of_another_length(&mut rng, &mut state);
            assert_ne!(state.len(), right);
        }
    }
}
