//! Random inputs of `linerun`, and how it is given them: at once or in parts, with the
//! pipe held open where the answer is due before the end.

use std::time::Duration;

use reference::calls::LIST_WORDS_MAX;
use reference::example::{LIST_L, TABLE_T};
use reference::generate::{linerun_input, Rng};
use reference::table::TABLE_WORDS_MAX;
use reference::words::{from_bytes, to_bytes};

use crate::kernels::program::Feed;
use line::cases::random::rng_for;

/// A word that is a whole call. A list of it is written in a few letters, as
/// 50000000*4097, so the list of an input that differs is made of it where the input
/// differs all the same.
pub const PLAIN_CALL: u32 = 0x5000_0000;

/// An input, and how it is given.
pub struct Given {
    pub input: Vec<u8>,
    pub feed: Feed,
}

/// The input of a number: the usual ones, and those at the limits of a list. Some are
/// given in parts. Most of those whose answer is due before their end are cut there and
/// held open.
pub fn given(seed: u64, number: u64, time: Duration) -> Given {
    let rng = &mut rng_for(seed, number);
    let mut input = match number % 16 {
        0 => at_the_limit(rng),
        1 => linerun_input(rng, 16, 32, 4096),
        2..=8 => linerun_input(rng, 16, 32, 100),
        _ => linerun_input(rng, 3, 2, 40),
    };
    let parts = match number % 64 {
        9 => Some(1),
        32 => Some(4001),
        5 | 13 | 21 | 29 => Some(257),
        _ => None,
    };
    let due = due(&input).filter(|_| number % 4 != 3);
    if let Some(due) = due {
        input.truncate(due);
        input.extend(vec![0xF0; rng.below(4)]);
    }
    let held = due.is_some();
    Given {
        input,
        feed: Feed { parts, held, time },
    }
}

/// Inputs of every shape that reading can meet: the worked example cut after each of its
/// bytes, bytes of every value left over after lists of many lengths, and length words with
/// each bit turned and around the largest.
pub fn fixed(time: Duration) -> Vec<Given> {
    let whole = with_length(TABLE_T.len() as u32, &TABLE_T, &LIST_L);
    let cut = (0..=whole.len()).map(|length| whole[..length].to_vec());
    let bits = (0..32).map(|bit| TABLE_T.len() as u32 ^ 1 << bit);
    let around = [0, 1, 33, 35, 640, 641, 642, 643, u32::MAX];
    let lengths = bits.chain(around);
    let lengths = lengths.map(|length| with_length(length, &TABLE_T, &LIST_L));
    let feed = Feed {
        parts: None,
        held: false,
        time,
    };
    let inputs = cut.chain(left_over()).chain(lengths);
    inputs.map(|input| Given { input, feed }).collect()
}

fn with_length(length: u32, table: &[u32], list: &[u32]) -> Vec<u8> {
    to_bytes(&[&[length], table, list].concat())
}

/// One to three bytes after lists of many lengths, every value of them: after lists of
/// each length that is short or near the longest, and each value after another length.
fn left_over() -> Vec<Vec<u8>> {
    let near_the_limits = (0..=12).chain(4090..=4097);
    let every_count = near_the_limits.flat_map(|length| (1..4).map(move |count| (length, count)));
    let values = [0x00, 0x0A, 0x20, 0x7F, 0x80, 0xF0, 0xFF];
    let by_turns = every_count
        .enumerate()
        .map(|(number, (length, count))| (length, count, values[number % values.len()]));
    let each_value = (0..256).map(|value| (16 * value, 1 + value % 3, value as u8));
    let all = by_turns.chain(each_value);
    let with = |(words, count, value)| {
        let list = vec![PLAIN_CALL; words];
        let input = with_length(TABLE_T.len() as u32, &TABLE_T, &list);
        [input, vec![value; count]].concat()
    };
    all.map(with).collect()
}

/// How many bytes of an input decide its answer, where that is due before the end: at
/// a length word above 641, and at list word 4,097.
pub fn due(input: &[u8]) -> Option<usize> {
    let length = *from_bytes(input).first()? as usize;
    if length > TABLE_WORDS_MAX {
        return Some(4);
    }
    let words = 1 + length + LIST_WORDS_MAX + 1;
    (input.len() >= 4 * words).then_some(4 * words)
}

/// A list of 4,095 to 4,097 words, with or without bytes left over, after a table
/// that is sound or not.
fn at_the_limit(rng: &mut Rng) -> Vec<u8> {
    let mut table = reference::generate::table(rng, 2, 1);
    if rng.chance(1, 3) {
        table[0] ^= 1 << rng.below(32);
    }
    let mut words = vec![table.len() as u32];
    words.extend(table);
    words.extend(vec![PLAIN_CALL; rng.between(4095, 4097)]);
    let mut input = to_bytes(&words);
    input.extend(vec![0xF0; rng.below(4)]);
    input
}

/// An input's length word and table, its list, and the bytes left over.
pub fn apart(input: &[u8]) -> (&[u8], Vec<u32>, &[u8]) {
    let length = from_bytes(input)
        .first()
        .map_or(0, |&length| length as usize);
    let table = if length > TABLE_WORDS_MAX { 0 } else { length };
    let (head, rest) = input.split_at(input.len().min(4 + 4 * table));
    (head, from_bytes(rest), rest.chunks_exact(4).remainder())
}

#[cfg(test)]
mod tests {
    use super::*;

    #[test]
    fn fixed_inputs_are_cut_in_words_and_have_every_byte_left_over() {
        let inputs = fixed(Duration::from_secs(10));
        let mut values = [false; 256];
        for Given { input, .. } in &inputs {
            let (_, list, left) = apart(input);
            if !left.is_empty() && list.len() > 12 {
                values[left[0] as usize] = true;
            }
        }
        assert!(values.iter().all(|&met| met));
        let lengths = [0, 4095, 4096, 4097];
        let met = |length| {
            inputs
                .iter()
                .any(|given| apart(&given.input).1.len() == length)
        };
        assert!(lengths.into_iter().all(met), "{}", inputs.len());
    }

    #[test]
    fn what_is_held_open_has_what_decides_its_answer() {
        let mut held = 0;
        for number in 0..1000 {
            let Given { input, feed } = given(1, number, Duration::from_secs(10));
            if feed.held {
                held += 1;
                let whole = reference::linerun(&input);
                let due = due(&input).expect("it is due");
                assert_eq!(reference::linerun(&input[..due]), whole);
                // Of a list, not a byte less would do.
                let less = reference::linerun(&input[..due - 1]);
                assert_eq!(less == whole, due == 4, "{number}");
            }
        }
        assert!(held > 50, "{held}");
    }
}
