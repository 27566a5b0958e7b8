//! The writer: a list's words from calls as values, and back (document 02, request
//! (c); kind 8 is of request (i)).
//!
//! It knows no table. Only the widths of the fields count: caller and A have 6 bits,
//! B and C have 8, the second word's content has 28. So a caller of 63, the name 0
//! and any eight bits of rights are written.

use crate::calls::{
    cut, Call, GRANT, LIST_WORDS_MAX, LOOK_UP, MY_ENDPOINTS, MY_RIGHTS, RECEIVE, REMOVE, REVOKE,
    SEND, STRAY,
};
use crate::machine::{an_unused_field_is_set, takes_second_word};
use crate::words::word;

/// A call as a value: just the fields that its kind uses.
#[derive(Debug, Clone, Copy, PartialEq, Eq, PartialOrd, Ord)]
#[rustfmt::skip]
pub enum Value {
    LookUp { caller: u32, name: u32 },
    Send { caller: u32, endpoint: u32, message: u32 },
    Receive { caller: u32, endpoint: u32 },
    MyEndpoints { caller: u32 },
    MyRights { caller: u32 },
    Grant { caller: u32, target: u32, recipient: u32, rights: u32 },
    Remove { caller: u32, target: u32, rights: u32 },
    Revoke { caller: u32, target: u32, holder: u32, rights: u32 },
    /// A call that the reader refuses, with the code: 10, 11, 13 or 14.
    Refused(u32),
}

/// The plain words that one call has where calls are handed in as words: kind,
/// caller, A, B, and C or, for a look up and a send, the second word's content.
pub const COLUMNS: usize = 5;

/// Whether a call can be written: it is no refused one, and each of its fields is
/// within its bits.
pub fn fits(call: &Value) -> bool {
    to_columns(call).is_some_and(|[kind, caller, a, b, last]| {
        let last_bits = if has_two_words(kind) { 28 } else { 8 };
        within(caller, 6) && within(a, 6) && within(b, 8) && within(last, last_bits)
    })
}

fn within(field: u32, bits: u32) -> bool {
    field < 1 << bits
}

fn has_two_words(kind: u32) -> bool {
    matches!(kind, LOOK_UP | SEND)
}

/// Writes a list: (0, the number of words written), leaving the space past them; or,
/// writing none, (30, the number of the first call that doesn't fit), or else (31, 0)
/// where the words would pass 4,096 or the space.
pub fn write(calls: &[Value], space: &mut [u32]) -> (u32, usize) {
    let each: Vec<Option<Vec<u32>>> = calls.iter().map(words).collect();
    put(&each, space)
}

/// The same for calls that are handed in as plain words, five for each. Five words
/// that are no call, or fewer at the end, count as a refused call.
pub fn write_columns(columns: &[u32], space: &mut [u32]) -> (u32, usize) {
    let each: Vec<Option<Vec<u32>>> = columns
        .chunks(COLUMNS)
        .map(|five| from_columns(five).and_then(|call| words(&call)))
        .collect();
    put(&each, space)
}

/// Puts the words of each call into the space, where none of them has no words and
/// all of them have room.
fn put(each: &[Option<Vec<u32>>], space: &mut [u32]) -> (u32, usize) {
    if let Some(number) = each.iter().position(Option::is_none) {
        return (30, number);
    }
    let words: Vec<u32> = each.iter().flatten().flatten().copied().collect();
    if words.len() > LIST_WORDS_MAX || words.len() > space.len() {
        return (31, 0);
    }
    space[..words.len()].copy_from_slice(&words);
    (0, words.len())
}

/// The one or two words of a call that fits, none of one that doesn't.
fn words(call: &Value) -> Option<Vec<u32>> {
    let [kind, caller, a, b, last] = to_columns(call).filter(|_| fits(call))?;
    if has_two_words(kind) {
        let first = first_word(kind, caller, a, b, 0);
        Some(vec![first, word(STRAY, last)])
    } else {
        Some(vec![first_word(kind, caller, a, b, last)])
    }
}

fn first_word(kind: u32, caller: u32, a: u32, b: u32, c: u32) -> u32 {
    word(kind, (caller << 22) | (a << 16) | (b << 8) | c)
}

/// The five columns of a call, 0 in those that its kind doesn't use; none for a
/// refused call.
#[rustfmt::skip]
pub fn to_columns(call: &Value) -> Option<[u32; COLUMNS]> {
    Some(match *call {
        Value::LookUp { caller, name } => [LOOK_UP, caller, 0, 0, name],
        Value::Send { caller, endpoint, message } => [SEND, caller, 0, endpoint, message],
        Value::Receive { caller, endpoint } => [RECEIVE, caller, 0, endpoint, 0],
        Value::MyEndpoints { caller } => [MY_ENDPOINTS, caller, 0, 0, 0],
        Value::MyRights { caller } => [MY_RIGHTS, caller, 0, 0, 0],
        Value::Grant { caller, target, recipient, rights } =>
            [GRANT, caller, target, recipient, rights],
        Value::Remove { caller, target, rights } => [REMOVE, caller, target, 0, rights],
        Value::Revoke { caller, target, holder, rights } =>
            [REVOKE, caller, target, holder, rights],
        Value::Refused(_) => return None,
    })
}

/// The call that five columns are; none where there aren't five, the kind isn't one
/// of a call, or a column that the kind doesn't use isn't 0.
#[rustfmt::skip]
pub fn from_columns(five: &[u32]) -> Option<Value> {
    Some(match *five {
        [LOOK_UP, caller, 0, 0, name] => Value::LookUp { caller, name },
        [SEND, caller, 0, endpoint, message] => Value::Send { caller, endpoint, message },
        [RECEIVE, caller, 0, endpoint, 0] => Value::Receive { caller, endpoint },
        [MY_ENDPOINTS, caller, 0, 0, 0] => Value::MyEndpoints { caller },
        [MY_RIGHTS, caller, 0, 0, 0] => Value::MyRights { caller },
        [GRANT, caller, target, recipient, rights] =>
            Value::Grant { caller, target, recipient, rights },
        [REMOVE, caller, target, 0, rights] => Value::Remove { caller, target, rights },
        [REVOKE, caller, target, holder, rights] =>
            Value::Revoke { caller, target, holder, rights },
        _ => return None,
    })
}

/// A list taken apart: its calls as values, as the cutting makes them.
pub fn read(list: &[u32]) -> Vec<Value> {
    cut(list).iter().map(value).collect()
}

fn value(call: &Call) -> Value {
    if let Some(code) = refusal(call) {
        return Value::Refused(code);
    }
    let last = call.second_content().unwrap_or(call.c());
    let caller = call.caller().expect("no stray");
    // Columns that are no call have one that its kind doesn't use: 13, as above.
    let columns = [call.kind(), caller, call.a(), call.b(), last];
    from_columns(&columns).unwrap_or(Value::Refused(13))
}

/// The first of the codes 10, 11, 13 and 14 that the call meets; 12 isn't tested.
fn refusal(call: &Call) -> Option<u32> {
    if call.is_stray() {
        return Some(10);
    }
    if call.is_unknown() {
        return Some(11);
    }
    if an_unused_field_is_set(call) {
        return Some(13);
    }
    if takes_second_word(call) && call.second.is_none() {
        return Some(14);
    }
    None
}
