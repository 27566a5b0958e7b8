//! The run of a whole list, with the entry's codes 1 to 6 (document 01, "Where
//! each number is checked").

use crate::calls::{cut, Call, LIST_WORDS_MAX};
use crate::machine::step;
use crate::table::check_table;

/// The answer words of one call.
pub const ANSWER_WORDS: usize = 3;

/// Runs a list on a table: (code 0, the number of calls), or (the code of the
/// entry's refusal, 0) with table and answers as they were.
pub fn run(table: &mut [u32], list: &[u32], answers: &mut [u32]) -> (u32, u32) {
    let calls = match accepted(table, list, answers.len()) {
        Ok(calls) => calls,
        Err(code) => return (code, 0),
    };
    run_calls(table, &calls, answers);
    (0, calls.len() as u32)
}

/// The calls of a list that the entry accepts; else 1, then the table's 2 to 5, then 6.
fn accepted(table: &[u32], list: &[u32], space: usize) -> Result<Vec<Call>, u32> {
    if list.len() > LIST_WORDS_MAX {
        return Err(1);
    }
    let table_code = check_table(table);
    if table_code != 0 {
        return Err(table_code);
    }
    let calls = cut(list);
    if space < ANSWER_WORDS * calls.len() {
        return Err(6);
    }
    Ok(calls)
}

/// Feeds the calls to the machine in their order. Space beyond three words a
/// call is untouched.
fn run_calls(table: &mut [u32], calls: &[Call], answers: &mut [u32]) {
    let mut place = 0;
    for call in calls {
        let answer = step(table, call);
        answers[place..place + ANSWER_WORDS].copy_from_slice(&answer);
        place += ANSWER_WORDS;
    }
}
