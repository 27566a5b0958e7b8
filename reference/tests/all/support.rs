//! What several tests share: a run with all that comes of it, and tables that
//! differ from table T in one word.

use reference::example::TABLE_T;
use reference::table::{domains, endpoint_words, endpoints, owner, rights_place, WAITING_PLACE};
use reference::words::{bits, hex};
use reference::{cut, run, step, view, Call, View};

/// A word that the answer space holds before a run.
pub const UNTOUCHED: u32 = 0xA5A5_5A5A;

/// A run of a whole list and what it left.
pub struct Run {
    pub code: u32,
    pub count: u32,
    pub table: Vec<u32>,
    /// The whole answer space, which is longer than any run of the list needs.
    pub answers: Vec<u32>,
}

/// Runs a list from a table, with three answer words for each word of the list
/// and some more.
pub fn run_from(table: &[u32], list: &[u32]) -> Run {
    let mut left = table.to_vec();
    let mut answers = vec![UNTOUCHED; 3 * list.len() + 6];
    let (code, count) = run(&mut left, list, &mut answers);
    Run {
        code,
        count,
        table: left,
        answers,
    }
}

/// The codes of a list's calls, in order; the list must run.
pub fn codes(table: &[u32], list: &[u32]) -> Vec<u32> {
    let ran = run_from(table, list);
    assert_eq!(ran.code, 0, "the list must run: {}", hex(list));
    ran.answers[..3 * ran.count as usize]
        .chunks_exact(3)
        .map(code_of)
        .collect()
}

/// The machine's run of some calls: the table left, and the answers.
fn machine_run(table: &[u32], calls: &[Call]) -> (Vec<u32>, Vec<u32>) {
    let mut left = table.to_vec();
    let answers = calls
        .iter()
        .flat_map(|call| step(&mut left, call))
        .collect();
    (left, answers)
}

/// The view of d over the whole run of a list and over the machine's run of the kept
/// calls alone, and the table that the kept calls leave.
pub fn both_views(
    table: &[u32],
    calls: &[Call],
    whole: &Run,
    kept: &[bool],
    d: usize,
) -> (View, View, Vec<u32>) {
    let kept_calls: Vec<Call> = calls
        .iter()
        .zip(kept)
        .filter(|(_, &keep)| keep)
        .map(|(&call, _)| call)
        .collect();
    let (left, answers) = machine_run(table, &kept_calls);
    let of_whole = view(&whole.table, calls, &whole.answers, d);
    let of_kept = view(&left, &kept_calls, &answers, d);
    (of_whole, of_kept, left)
}

/// The code in an answer's first word.
pub fn code_of(answer: &[u32]) -> u32 {
    bits(answer[0], 15, 0)
}

/// The code of the only call of a list.
pub fn code(table: &[u32], list: &[u32]) -> u32 {
    let all = codes(table, list);
    assert_eq!(all.len(), 1, "one call: {}", hex(list));
    all[0]
}

/// The one call that the words make.
pub fn call(words: &[u32]) -> Call {
    let calls = cut(words);
    assert_eq!(calls.len(), 1, "one call: {}", hex(words));
    calls[0]
}

/// Table T with other words at some places.
pub fn table_with(changes: &[(usize, u32)]) -> Vec<u32> {
    let mut table = TABLE_T.to_vec();
    for &(place, word) in changes {
        table[place] = word;
    }
    table
}

/// Where the words of table T stand.
pub mod place {
    /// The word of a holder's rights on a target.
    pub fn rights(holder: usize, target: usize) -> usize {
        1 + 3 * holder + target
    }
    /// The twelve words of endpoint 1.
    pub const ENDPOINT_1: usize = 22;
    pub const NAME_1: usize = ENDPOINT_1;
    pub const INFO_1: usize = ENDPOINT_1 + 1;
    pub const WAITING_1: usize = ENDPOINT_1 + 2;
    pub const LOST_1: usize = ENDPOINT_1 + 3;
    pub const SLOTS_1: usize = ENDPOINT_1 + 4;
    /// The twelve words of endpoint 0.
    pub const INFO_0: usize = 11;
    pub const WAITING_0: usize = 12;
    pub const LOST_0: usize = 13;
    pub const SLOTS_0: usize = 14;
}

/// An accepted table of n domains and m endpoints in which no domain has a right
/// and every queue is empty: endpoint e is named e + 1, is owned by domain 0 and
/// has capacity 1.
pub fn bare_table(n: usize, m: usize) -> Vec<u32> {
    let mut table = vec![0x1000_0000 | ((n << 8) | m) as u32];
    table.extend(vec![0x2000_0000; n * n]);
    for endpoint in 0..m as u32 {
        table.extend([0x3000_0001 + endpoint, 0x4000_0001]);
        table.extend([0x5000_0000, 0x6000_0000]);
        table.extend([0xF000_0000; 8]);
    }
    table
}

/// A table of n domains without endpoints, where `holder` has a set of rights on
/// `target` for each given.
pub fn rights_table(n: usize, held: &[(usize, usize, u32)]) -> Vec<u32> {
    let mut table = bare_table(n, 0);
    for &(holder, target, set) in held {
        table[1 + n * holder + target] |= set;
    }
    table
}

/// The words that belong to a domain: its rights, and the waiting, lost and
/// message words of its endpoints (document 01: a domain's part).
pub fn part(table: &[u32], d: usize) -> Vec<u32> {
    let row = rights_place(table, d, 0);
    let mut words = table[row..row + domains(table)].to_vec();
    for endpoint in (0..endpoints(table)).filter(|&e| owner(table, e) == d) {
        words.extend(&endpoint_words(table, endpoint)[WAITING_PLACE..]);
    }
    words
}

/// What a failing property test shows of its case.
pub fn shown(seed: u64, table: &[u32], list: &[u32]) -> String {
    format!("seed {seed}\ntable {}\nlist {}", hex(table), hex(list))
}
