//! End-of-shift totals (document 02, request (e)): one sheet from many lists that are
//! run one after another from one table.
//!
//! The input is the table as `linerun` takes it, then each list with its length in words
//! before it. No more of it is read than the next answer needs: a table is refused by 7
//! or 2 to 5 before any list is looked at, and a length word by 1 before its list is.

use std::io::Read;

use crate::calls::{cut, Call, LIST_WORDS_MAX, RECEIVE, SEND};
use crate::machine::{refusal, step};
use crate::table::{capacity, check_table, endpoints, waiting, TABLE_WORDS_MAX};
use crate::words::from_bytes;

/// The most lists that one sheet can have.
pub const LISTS_MAX: usize = 65_536;

/// What the program prints for an input.
pub fn totals(mut input: &[u8]) -> Vec<u8> {
    totals_of(&mut input)
}

/// The same for an input that comes piece by piece. A read that fails counts as its end.
pub fn totals_of(input: &mut impl Read) -> Vec<u8> {
    match read_table(input) {
        Err(code) => last_line(0, code).into_bytes(),
        Ok(table) => sheet(table, input).into_bytes(),
    }
}

/// What is counted of one endpoint over the lists that ran.
#[derive(Default, Clone)]
struct Totals {
    sent: u64,
    received: u64,
    /// The sends that found the queue full. The table's own count stops at its largest.
    lost: u64,
}

/// Runs the lists from an accepted table up to the first that is refused.
fn sheet(mut table: Vec<u32>, input: &mut impl Read) -> String {
    let start = table.clone();
    let mut totals = vec![Totals::default(); endpoints(&table)];
    let mut ran = 0;
    loop {
        match read_list(input, ran) {
            Ok(Some(list)) => run_list(&mut table, &list, &mut totals),
            Ok(None) => return lines(&totals, &start, &table) + &last_line(ran, 0),
            Err(code) => return lines(&totals, &start, &table) + &last_line(ran, code),
        }
        ran += 1;
    }
}

fn run_list(table: &mut [u32], list: &[u32], totals: &mut [Totals]) {
    for call in cut(list) {
        if refusal(table, &call).is_none() {
            count(table, &call, totals);
        }
        step(table, &call);
    }
}

/// Counts a call that isn't refused, by the table before it.
fn count(table: &[u32], call: &Call, totals: &mut [Totals]) {
    let e = call.b() as usize;
    match call.kind() {
        SEND => {
            totals[e].sent += 1;
            totals[e].lost += u64::from(waiting(table, e) == capacity(table, e));
        }
        RECEIVE => totals[e].received += 1,
        _ => {}
    }
}

/// The table, or the code 7 or 2 to 5.
fn read_table(input: &mut impl Read) -> Result<Vec<u32>, u32> {
    let length = read_words(input, 1).ok_or(7_u32)?[0] as usize;
    if length > TABLE_WORDS_MAX {
        return Err(7);
    }
    let table = read_words(input, length).ok_or(7_u32)?;
    match check_table(&table) {
        0 => Ok(table),
        code => Err(code),
    }
}

/// The next list after those that ran, none at the end of the input; or the code 1 or 7.
fn read_list(input: &mut impl Read, ran: usize) -> Result<Option<Vec<u32>>, u32> {
    // Any byte past the most lists is of a length word, whole or cut short.
    let wanted = if ran == LISTS_MAX { 1 } else { 4 };
    let first = read_bytes(input, wanted);
    if first.is_empty() {
        return Ok(None);
    }
    if ran == LISTS_MAX {
        return Err(1);
    }
    if first.len() < 4 {
        return Err(7);
    }
    let length = from_bytes(&first)[0] as usize;
    if length > LIST_WORDS_MAX {
        return Err(1);
    }
    read_words(input, length).map(Some).ok_or(7)
}

/// So many words, none where the input ends before.
fn read_words(input: &mut impl Read, count: usize) -> Option<Vec<u32>> {
    let bytes = read_bytes(input, 4 * count);
    Some(from_bytes(&bytes)).filter(|_| bytes.len() == 4 * count)
}

/// So many bytes, fewer where the input ends before.
fn read_bytes(input: &mut impl Read, count: usize) -> Vec<u8> {
    let mut bytes = Vec::new();
    let _ = input.take(count as u64).read_to_end(&mut bytes);
    bytes
}

/// A line for each endpoint, lowest number first, with what waits at start and end.
fn lines(totals: &[Totals], start: &[u32], end: &[u32]) -> String {
    let line = |(e, total): (usize, &Totals)| {
        let Totals {
            sent,
            received,
            lost,
        } = total;
        let (start, end) = (waiting(start, e), waiting(end, e));
        format!(
            "endpoint {e} sent {sent} received {received} lost {lost} start {start} end {end}\n"
        )
    };
    totals.iter().enumerate().map(line).collect()
}

fn last_line(lists: usize, code: u32) -> String {
    format!("lists {lists} code {code}\n")
}
