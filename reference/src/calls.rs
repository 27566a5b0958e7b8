//! Calls, and the cutting of a list into calls (document 01, "The calls").
//!
//! The cutting looks at kinds only: it knows no table, and a call that will be
//! refused keeps its second word.

use crate::words::{bits, content, kind};

/// The kinds of the eight calls, and of a stray word. Revoke is of document 02,
/// request (i).
pub const LOOK_UP: u32 = 1;
pub const SEND: u32 = 2;
pub const RECEIVE: u32 = 3;
pub const MY_ENDPOINTS: u32 = 4;
pub const MY_RIGHTS: u32 = 5;
pub const GRANT: u32 = 6;
pub const REMOVE: u32 = 7;
pub const REVOKE: u32 = 8;
pub const STRAY: u32 = 15;

/// The most words that a list can have.
pub const LIST_WORDS_MAX: usize = 4096;

/// A call as cut from a list: its one or two words and nothing else.
#[derive(Debug, Clone, Copy, PartialEq, Eq)]
pub struct Call {
    pub first: u32,
    pub second: Option<u32>,
}

impl Call {
    pub fn kind(&self) -> u32 {
        kind(self.first)
    }

    /// A word of kind 15 that stands alone.
    pub fn is_stray(&self) -> bool {
        self.kind() == STRAY
    }

    /// Kind 0 and kinds 9 to 14.
    pub fn is_unknown(&self) -> bool {
        matches!(self.kind(), 0 | 9..=14)
    }

    /// Bits 27–22 of the first word, as found. A stray has no caller.
    pub fn caller(&self) -> Option<u32> {
        if self.is_stray() {
            None
        } else {
            Some(bits(self.first, 27, 22))
        }
    }

    /// Field A, bits 21–16.
    pub fn a(&self) -> u32 {
        bits(self.first, 21, 16)
    }

    /// Field B, bits 15–8.
    pub fn b(&self) -> u32 {
        bits(self.first, 15, 8)
    }

    /// Field C, bits 7–0.
    pub fn c(&self) -> u32 {
        bits(self.first, 7, 0)
    }

    /// The name or message: bits 27–0 of the second word.
    pub fn second_content(&self) -> Option<u32> {
        self.second.map(content)
    }

    /// The call's own words, one or two.
    pub fn words(&self) -> Vec<u32> {
        let mut words = vec![self.first];
        words.extend(self.second);
        words
    }
}

/// The calls of a list: a word of kind 1 or 2 directly followed by a word of
/// kind 15 makes one call of both, every other word is a call of one word.
pub fn cut(list: &[u32]) -> Vec<Call> {
    let mut calls = Vec::with_capacity(list.len());
    let mut place = 0;
    while place < list.len() {
        let first = list[place];
        let second = second_word(first, list.get(place + 1).copied());
        calls.push(Call { first, second });
        place += if second.is_some() { 2 } else { 1 };
    }
    calls
}

/// The word that follows, where it belongs to the call that `first` starts.
fn second_word(first: u32, following: Option<u32>) -> Option<u32> {
    let takes_two = matches!(kind(first), LOOK_UP | SEND);
    following.filter(|&word| takes_two && kind(word) == STRAY)
}
