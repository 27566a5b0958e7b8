//! Turns for the spring model (document 02, request (m)): each domain hands in its calls
//! one by one, and a turn serves one of them. It is a layer above the machine.
//!
//! What is kept can only be made by beginning, handing in and turns, or read out of words
//! that a caller lends ([`turn_words`](crate::turn_words)). It has pending words for the
//! most domains there can be; where a table of fewer is lent, the pending words of the
//! others stay and aren't served.

use crate::calls::{cut, Call};
use crate::holders::holders;
use crate::machine::step;
use crate::table::{check_table, domains, DOMAINS_MAX};

/// The most words of pending calls that a domain can have.
pub const PENDING_WORDS: usize = 16;

/// What is kept between turns.
#[derive(Debug, Clone, PartialEq, Eq)]
pub struct Turns {
    /// The words of each domain's pending calls, oldest first.
    pending: [Vec<u32>; DOMAINS_MAX],
    /// Where the next turn starts: after the domain served last.
    place: usize,
}

/// What a turn that isn't refused says.
#[derive(Debug, Clone, Copy, PartialEq, Eq)]
pub enum Turn {
    /// No call was pending.
    Idle,
    /// The call that was served, and its three answer words.
    Served { call: Call, answer: [u32; 3] },
}

impl Turns {
    /// Begins with nothing pending; the first turn of all starts at 0.
    pub fn begin() -> Turns {
        Turns {
            pending: Default::default(),
            place: 0,
        }
    }

    /// What is kept as words say it, whether or not handing in and turns could have come to
    /// it.
    pub(crate) fn kept(pending: [Vec<u32>; DOMAINS_MAX], place: usize) -> Turns {
        Turns { pending, place }
    }

    /// The words of a domain's pending calls, oldest first.
    pub fn pending(&self, domain: usize) -> &[u32] {
        &self.pending[domain]
    }

    /// Where the next turn starts: 0 at first, and after a turn that served domain d it is
    /// d + 1, from where a turn goes round to 0 if no domain has that number.
    pub fn place(&self) -> usize {
        self.place
    }

    /// Hands in the words of a call for a domain: 0; or, changing nothing, the table's 2
    /// to 5, then 35, 36 or 37.
    pub fn hand_in(&mut self, table: &[u32], domain: u32, words: &[u32]) -> u32 {
        let code = check_table(table);
        if code != 0 {
            return code;
        }
        if domain as usize >= domains(table) {
            return 35;
        }
        if !are_one_call_of(words, domain) {
            return 36;
        }
        let pending = &mut self.pending[domain as usize];
        if pending.len() + words.len() > PENDING_WORDS {
            return 37;
        }
        pending.extend(words);
        0
    }

    /// A turn: serves the oldest call of the first domain that has one, and sets the
    /// panel's words. Or, changing nothing, it is idle, or refused by the table's 2 to 5 or
    /// then 6 if other than n of the panel's words are lent.
    pub fn turn(&mut self, table: &mut [u32], panel: &mut [u32]) -> Result<Turn, u32> {
        let code = check_table(table);
        if code != 0 {
            return Err(code);
        }
        if panel.len() != domains(table) {
            return Err(6);
        }
        let Some(domain) = self.next_domain(domains(table)) else {
            return Ok(Turn::Idle);
        };
        let call = self.take_oldest(domain);
        self.place = domain + 1;
        let answer = step(table, &call);
        panel.copy_from_slice(&holders(table));
        Ok(Turn::Served { call, answer })
    }

    /// The first of n domains that has a call, from the place on and round to 0.
    fn next_domain(&self, n: usize) -> Option<usize> {
        (self.place..n)
            .chain(0..n.min(self.place))
            .find(|&d| !self.pending[d].is_empty())
    }

    /// Takes out the oldest pending call of a domain. No stray is ever handed in, so words
    /// that were handed in are cut into the calls that they came in.
    fn take_oldest(&mut self, domain: usize) -> Call {
        let oldest = cut(&self.pending[domain])[0];
        self.pending[domain].drain(..oldest.words().len());
        oldest
    }
}

/// Whether words are exactly one call, no stray, with a domain as its caller.
fn are_one_call_of(words: &[u32], domain: u32) -> bool {
    let calls = cut(words);
    calls.len() == 1 && calls[0].caller() == Some(domain)
}
