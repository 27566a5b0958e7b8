//! Random inputs of `linetotals`, and how it is given them: at once or in parts, with the
//! pipe held open where the answer is due before the end. And long ones, to measure its
//! speed by.

use std::io::Read;
use std::time::Duration;

use reference::example::{LIST_L, TABLE_T};
use reference::generate::{totals_input, Limits};
use reference::totals::LISTS_MAX;
use reference::words::to_bytes;

use crate::cases::inputs::{Given, PLAIN_CALL};
use crate::cases::workloads::{workloads, Workload};
use crate::kernels::program::Feed;
use line::cases::random::rng_for;

/// The most domains, endpoints, lists and words of a list, in turn.
const SIZES: [(usize, usize, usize, usize); 4] = [
    (3, 2, 6, 30),
    (16, 32, 3, 60),
    (4, 4, 20, 12),
    (2, 1, 2, 4096),
];

/// The input of a number. Some are given in parts; of those whose answer is due before
/// the end, most are cut there and held open.
pub fn given(seed: u64, number: u64, time: Duration) -> Given {
    let rng = &mut rng_for(seed, number);
    let (domains, endpoints, lists, words) = SIZES[(number % SIZES.len() as u64) as usize];
    let limits = Limits {
        domains,
        endpoints,
        lists,
        words,
    };
    let mut input = totals_input(rng, limits);
    let parts = match number % 64 {
        8 => Some(1),
        32 => Some(4001),
        5 | 13 | 22 | 30 => Some(257),
        _ => None,
    };
    // A byte at a time takes long: such an input is a short one.
    let parts = parts.filter(|&most| input.len() < 4_000 || most > 1);
    let due = due(&input).filter(|_| number % 4 != 3);
    if let Some(due) = due {
        input.truncate(due);
    }
    let held = due.is_some();
    Given {
        input,
        feed: Feed { parts, held, time },
    }
}

/// Inputs of every shape that reading and counting can meet: more than 65,536 sends,
/// receives and losses at one endpoint, more than 100 lists, among them of exactly 4,096
/// words, with a receive as the last one, a short input cut after each of its bytes, and length words with each bit turned.
pub fn fixed(time: Duration) -> Vec<Given> {
    let feed = Feed {
        parts: None,
        held: false,
        time,
    };
    let mut inputs = vec![
        of_lists(&vec![repeated(SENDS[0], 4096); 40]),
        of_lists(&vec![repeated(SENDS[1], 4095); 52]),
        of_lists(&many_lists()),
        of_lists(&vec![repeated(SENDS[2], 4096); 110]),
        of_lists(&vec![
            [vec![PLAIN_CALL], repeated(SENDS[1], 4095)].concat();
            3
        ]),
    ];
    let few = [
        LIST_L.to_vec(),
        Vec::new(),
        SENDS[1].to_vec(),
        LIST_L.to_vec(),
    ];
    let short = of_lists(&few);
    inputs.extend((0..=short.len()).map(|length| short[..length].to_vec()));
    let second = 4 * (1 + COUNTED.len());
    for bit in 0..32 {
        for place in [0, second] {
            let mut input = short.clone();
            input[place + bit / 8] ^= 1 << (bit % 8);
            inputs.push(input);
        }
    }
    let given = inputs.into_iter().map(|input| Given { input, feed });
    given.collect()
}

/// Table T with SEND for everyone on the owner of endpoint 1, which holds one message, and
/// with its lost count near the top.
const COUNTED: [u32; 34] = {
    let mut table = TABLE_T;
    table[3] = 0x2000_0001;
    table[9] = 0x2000_0001;
    table[25] = 0x6FFF_FFF0;
    table
};

/// Sends to endpoint 1; a send and the receive of it; and a call of each kind.
const SENDS: [&[u32]; 3] = [
    &[0x2000_0100, 0xF000_0005],
    &[0x2000_0100, 0xF000_0006, 0x3080_0100],
    &LIST_L,
];

/// Calls repeated to so many words.
fn repeated(calls: &[u32], words: usize) -> Vec<u32> {
    calls.iter().copied().cycle().take(words).collect()
}

/// 130 lists of lengths that differ by turns, the longest and the empty one among them.
fn many_lists() -> Vec<Vec<u32>> {
    let lengths = [4096, 0, 1, 3, 4095, 2, 255, 256, 257, 4096, 1024, 64, 5];
    let lists = (0..130).map(|number| repeated(SENDS[number % 3], lengths[number % lengths.len()]));
    lists.collect()
}

/// The input of lists that run one after another.
fn of_lists(lists: &[Vec<u32>]) -> Vec<u8> {
    let mut words = vec![COUNTED.len() as u32];
    words.extend(COUNTED);
    for list in lists {
        words.push(list.len() as u32);
        words.extend(list);
    }
    to_bytes(&words)
}

/// As many lists as there can be, each with a send and a receive: to the end of the input,
/// and with the first byte of one length word more, after which the pipe is held open.
pub fn most_lists(time: Duration) -> [Given; 2] {
    let input = &long_inputs()[0];
    let list = &input.lists[0][..SEND_AND_RECEIVE];
    let mut words = vec![input.table.len() as u32];
    words.extend(&input.table);
    for _ in 0..LISTS_MAX {
        words.push(list.len() as u32);
        words.extend(list);
    }
    let all = to_bytes(&words);
    [(all.clone(), false), ([all, vec![0]].concat(), true)].map(|(input, held)| Given {
        input,
        feed: Feed {
            parts: None,
            held,
            time,
        },
    })
}

/// How many bytes of an input decide what is printed, where that is before the end is
/// seen: as many as the reference asks for.
pub fn due(input: &[u8]) -> Option<usize> {
    let mut counted = Counted {
        rest: input,
        read: 0,
        ended: false,
    };
    reference::totals_of(&mut counted);
    (!counted.ended).then_some(counted.read)
}

/// The words of a send and a receive, with which the first of the long inputs begins.
const SEND_AND_RECEIVE: usize = 3;

/// Sends and receives, and calls of all kinds: tables, each with lists of 4,096 words that
/// leave it as it was, to be run in rotation.
pub fn long_inputs() -> Vec<Workload> {
    workloads(1).into_iter().take(2).collect()
}

/// Bytes that tell how many of them were read, and whether their end was seen.
struct Counted<'a> {
    rest: &'a [u8],
    read: usize,
    ended: bool,
}

impl Read for Counted<'_> {
    fn read(&mut self, to: &mut [u8]) -> std::io::Result<usize> {
        let read = self.rest.read(to)?;
        self.read += read;
        self.ended |= read == 0 && !to.is_empty();
        Ok(read)
    }
}

#[cfg(test)]
mod tests {
    use reference::calls::LIST_WORDS_MAX;

    use super::*;

    #[test]
    fn a_long_input_has_different_lists_that_leave_its_table() {
        for input in long_inputs() {
            assert_eq!(input.lists.len(), 60);
            assert_ne!(input.lists[0], input.lists[1], "{}", input.name);
            for list in &input.lists {
                assert_eq!(list.len(), LIST_WORDS_MAX);
                let (mut table, mut answers) = (input.table.clone(), vec![0; 3 * list.len()]);
                assert_eq!(reference::run(&mut table, list, &mut answers).0, 0);
                assert_eq!(table, input.table, "{}", input.name);
            }
        }
    }

    #[test]
    fn fixed_inputs_count_past_two_bytes_and_have_many_lists() {
        let printed = fixed(Duration::from_secs(1)).into_iter().take(4);
        let printed = printed.map(|given| reference::totals(&given.input));
        let printed: Vec<String> = printed
            .map(|text| String::from_utf8(text).unwrap())
            .collect();
        assert!(printed[0].contains("sent 81920 received 0 lost 81919 start 0 end 1\n"));
        assert!(printed[1].contains("sent 70980 received 70980 lost 0"));
        assert!(printed[2].ends_with("lists 130 code 0\n"), "{}", printed[2]);
        assert!(printed[3].ends_with("lists 110 code 0\n"));
    }

    #[test]
    fn the_most_lists_are_counted_and_one_more_is_refused() {
        let printed = most_lists(Duration::from_secs(1)).map(|given| {
            assert_eq!(due(&given.input).is_some(), given.feed.held);
            String::from_utf8(reference::totals(&given.input)).unwrap()
        });
        let line = "endpoint 0 sent 65536 received 65536 lost 0 start 0 end 0\n";
        assert_eq!(printed[0], format!("{line}lists 65536 code 0\n"));
        assert_eq!(printed[1], format!("{line}lists 65536 code 1\n"));
    }

    #[test]
    fn an_answer_is_due_where_no_further_byte_is_wanted() {
        assert_eq!(due(&to_bytes(&[642, 0])), Some(4));
        assert_eq!(due(&to_bytes(&[1, 0, 7])), Some(8));
        let table = [0x1000_0100, 0x2000_0000];
        let with = |rest: &[u32]| to_bytes(&[&[2][..], &table, rest].concat());
        assert_eq!(due(&with(&[4097, 5])), Some(16));
        assert_eq!(due(&with(&[])), None);
        assert_eq!(due(&with(&[2, 0x4000_0000])), None);
        assert_eq!(due(&with(&vec![0; 65_536])), None);
        assert_eq!(due(&with(&vec![0; 65_537])), Some(4 * (3 + 65_536) + 1));
    }
}
