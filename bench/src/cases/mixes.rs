//! Lists of any length, to measure from which on one way of running them is faster than
//! another: the calls of one stream, cut into lists of so many words.
//!
//! A board runs list after list on one table, so the table is handed on from list to
//! list. The stream leaves it as it was after each few calls, wherever it is cut.

use std::iter::{repeat_with, Peekable};

use reference::calls::MY_RIGHTS;
use reference::generate::{call_word, Rng};
use reference::{cut, Call};

use crate::cases::workloads::{closed_table, refused, rng, shuffled, Drawn, KINDS, ROTATION};
use line::cases::tables::open_table;

/// Lists to go through in turn have so many words altogether, where that makes no fewer
/// than sixty of them and no more than thousands.
const WORDS: usize = 65_536;
const LISTS_MAX: usize = 4096;

/// Draws a few calls more, as words.
type Calls = dyn Fn(&mut Rng) -> Vec<u32>;

/// A table, and calls on it without end.
pub struct Mix {
    pub name: String,
    pub table: Vec<u32>,
    seed: u64,
    more: Box<Calls>,
}

impl Mix {
    /// Lists of so many words. A call of two words where one is left goes into the next
    /// list and a `my rights` fills up; in lists of one word there is none.
    pub fn lists(&self, words: usize) -> Vec<Vec<u32>> {
        self.first_lists(words, (WORDS / words).clamp(ROTATION, LISTS_MAX))
    }

    /// The first of them, so many.
    pub fn first_lists(&self, words: usize, count: usize) -> Vec<Vec<u32>> {
        let mut rng = rng(self.seed, 8);
        let calls = repeat_with(|| cut(&(self.more)(&mut rng))).flatten();
        let mut calls = calls.filter(|call| call.words().len() <= words).peekable();
        (0..count).map(|_| list(words, &mut calls)).collect()
    }
}

fn list(words: usize, calls: &mut Peekable<impl Iterator<Item = Call>>) -> Vec<u32> {
    let mut list = Vec::with_capacity(words);
    while list.len() < words {
        let left = words - list.len();
        match calls.next_if(|call| call.words().len() <= left) {
            Some(call) => list.extend(call.words()),
            None => list.push(call_word(MY_RIGHTS, 0, 0, 0, 0)),
        }
    }
    list
}

/// The mixes on a table of n domains and m endpoints.
pub fn mixes(seed: u64, n: usize, m: usize) -> Vec<Mix> {
    let mix = |name: &str, table: &[u32], more: Box<Calls>| Mix {
        name: format!("{name}, n {n}, m {m}"),
        table: table.to_vec(),
        seed,
        more,
    };
    let (table, owners) = open_table(n, m);
    let of_kind = move |kind: usize, rng: &mut Rng| KINDS[kind].1(&Drawn::new(rng, n, &owners));
    let (sends, rights, mixed) = (of_kind.clone(), of_kind.clone(), of_kind);
    let refused = refused(n, m);
    vec![
        mix(
            "mixed",
            &table,
            Box::new(move |rng| {
                // Look up to revoke and grant: every kind of call.
                let groups = [0, 1, 2, 3, 4, 5].map(|kind| mixed(kind, rng));
                shuffled(groups, rng).concat()
            }),
        ),
        mix(
            "refusals",
            &closed_table(n, m),
            Box::new(move |rng| refused[rng.below(refused.len())].clone()),
        ),
        mix(
            "sends and receives",
            &table,
            Box::new(move |rng| sends(1, rng)),
        ),
        mix(
            "my rights and look up",
            &table,
            Box::new(move |rng| [rights(3, rng), rights(0, rng)].concat()),
        ),
    ]
}

#[cfg(test)]
mod tests {
    use super::*;
    use reference::words::bits;

    /// The codes that the calls of lists get, one list after another on one table.
    fn codes(mix: &Mix, words: usize) -> Vec<u32> {
        let mut table = mix.table.clone();
        let mut answers = vec![0; 3 * words];
        let mut codes = Vec::new();
        for list in mix.lists(words) {
            assert_eq!(list.len(), words);
            let (code, calls) = reference::run(&mut table, &list, &mut answers);
            assert_eq!(code, 0, "{}", mix.name);
            let firsts = answers.chunks(3).take(calls as usize);
            codes.extend(firsts.map(|answer| bits(answer[0], 15, 0)));
        }
        codes
    }

    #[test]
    fn lists_are_as_many_as_are_asked_for_and_of_their_length() {
        for mix in mixes(1, 4, 4) {
            let counts = [1, 8, 64, 512, 4096].map(|words| mix.lists(words).len());
            assert_eq!(counts, [4096, 4096, 1024, 128, 60], "{}", mix.name);
            assert_eq!(mix.first_lists(64, 3), mix.lists(64)[..3], "{}", mix.name);
        }
    }

    #[test]
    fn calls_come_to_the_same_wherever_the_stream_is_cut() {
        for (n, m) in [(4, 4), (16, 32)] {
            let [mixed, refusals, sends, rights] = mixes(1, n, m).try_into().ok().unwrap();
            for words in [2, 7, 64, 4096] {
                for done in [&mixed, &sends, &rights] {
                    assert!(codes(done, words).iter().all(|&code| code == 0));
                }
                let refused = codes(&refusals, words);
                let of = |code| refused.iter().filter(|&&other| other == code).count();
                assert!((10..=23).all(|code| 20 * of(code) > refused.len()));
            }
        }
    }

    #[test]
    fn a_list_of_one_word_has_a_call_of_one_word() {
        for mix in mixes(1, 4, 4) {
            let lists = mix.lists(1);
            assert!(lists.iter().all(|list| cut(list).len() == 1));
        }
    }
}
