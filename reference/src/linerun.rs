//! The program `linerun`: from the bytes of standard input to the bytes printed
//! (document 01, "Into firmware and onto the bench").
//!
//! The order of its refusals: 7 where the length word or the table is cut short
//! or the length is above 641; then 1 for a whole list word 4,097, whatever is
//! wrong with the table or follows; then 7 for bytes left over; then the entry's
//! 2 to 5.

use crate::calls::{cut, LIST_WORDS_MAX};
use crate::entry::{run, ANSWER_WORDS};
use crate::table::TABLE_WORDS_MAX;
use crate::words::{bits, from_bytes};

/// What the program prints for an input.
pub fn linerun(input: &[u8]) -> Vec<u8> {
    match read(input) {
        Err(code) => first_line(0, code).into_bytes(),
        Ok((table, list)) => run_and_print(table, &list).into_bytes(),
    }
}

/// The table and the list, or the code 7 or 1.
fn read(input: &[u8]) -> Result<(Vec<u32>, Vec<u32>), u32> {
    let (length, rest) = read_length(input)?;
    if rest.len() < 4 * length {
        return Err(7);
    }
    let (table, list) = rest.split_at(4 * length);
    if list.len() / 4 > LIST_WORDS_MAX {
        return Err(1);
    }
    if list.len() % 4 != 0 {
        return Err(7);
    }
    Ok((from_bytes(table), from_bytes(list)))
}

/// The table's length in words, and the bytes after the length word.
fn read_length(input: &[u8]) -> Result<(usize, &[u8]), u32> {
    if input.len() < 4 {
        return Err(7);
    }
    let (first, rest) = input.split_at(4);
    let length = from_bytes(first)[0] as usize;
    if length > TABLE_WORDS_MAX {
        return Err(7);
    }
    Ok((length, rest))
}

fn run_and_print(mut table: Vec<u32>, list: &[u32]) -> String {
    let mut answers = vec![0; ANSWER_WORDS * cut(list).len()];
    let (code, calls) = run(&mut table, list, &mut answers);
    let mut text = first_line(calls, code);
    if code == 0 {
        for (number, answer) in answers.chunks_exact(ANSWER_WORDS).enumerate() {
            text.push_str(&call_line(number, answer));
        }
    }
    text
}

fn first_line(calls: u32, code: u32) -> String {
    format!("calls {calls} code {code}\n")
}

fn call_line(number: usize, answer: &[u32]) -> String {
    let kind = bits(answer[0], 31, 28);
    let caller = bits(answer[0], 27, 22);
    let code = bits(answer[0], 15, 0);
    let (x, y) = (answer[1], answer[2]);
    format!("call {number} caller {caller} kind {kind} code {code} data {x} {y}\n")
}
