//! Sizes around each limit: of lists, of answer spaces, of the words for the holders and of
//! tables; far above them too, where a length that is kept in a byte or in two would be a
//! lawful one again. And each length that a list may have, and each size that a table may
//! have, with queues of each capacity.

use reference::calls::{cut, Call, LIST_WORDS_MAX, STRAY};
use reference::entry::ANSWER_WORDS;
use reference::generate::call_word;
use reference::table::{domains, right, DOMAINS_MAX, ENDPOINTS_MAX, ENDPOINT_WORDS, SLOTS};

use super::bits::{ask_all, run_of};
use super::tables::{spread, Shape};
use super::{far, Given, Tables, Take};
use crate::cases::Case;
use crate::judging::exercise::planner::{grant, look_up, my_rights, receive, remove, revoke, send};
use crate::judging::variants::holders_for;

/// The lengths of lists.
const LISTS: [usize; 26] = [
    0, 1, 2, 3, 4, 63, 64, 65, 127, 128, 129, 255, 256, 257, 1023, 1024, 1025, 2048, 4094, 4095,
    4096, 4097, 4098, 8192, 8195, 12_288,
];

/// Lengths of which the low bytes are those of a lawful one.
const FAR: [usize; 6] = [65_536, 65_537, 65_541, 69_632, 69_633, 131_075];

/// The drill: on the line's table and on two others, then on tables of every size.
pub fn sizes(tables: &Tables, take: &mut Take) {
    for table in tables.few() {
        around_limits(table, take);
        far::lengths(table, take);
    }
    long_lists(take);
    every_length(take);
    every_count(take);
    for (n, m) in (1..=DOMAINS_MAX).flat_map(|n| (0..=ENDPOINTS_MAX).map(move |m| (n, m))) {
        every_capacity(n, m, take);
        first_and_last(n, m, take);
    }
}

fn around_limits(table: &[u32], take: &mut Take) {
    for words in LISTS {
        for (fill, first) in FILLS.iter().flat_map(|&fill| [(fill, 0), (fill, 1)]) {
            let list = filled(fill, words, first);
            spaces(table, &list, words < 130 || words > 4090, take);
        }
    }
    for words in FAR {
        spaces(table, &filled(FILLS[0], words, 0), false, take);
        spaces(table, &filled(FILLS[1], words, 0), false, take);
    }
    holders(table, take);
    lengths(table, take);
}

/// A list of every length up to one word too many.
fn every_length(take: &mut Take) {
    for words in 0..=LIST_WORDS_MAX + 1 {
        let list = vec![my_rights(0).first; words];
        run_of(&Shape::new(1, 0).words(), list, take);
    }
}

/// Every number of domains with every number of words for the holders up to some more.
fn every_count(take: &mut Take) {
    for (n, count) in (1..=DOMAINS_MAX).flat_map(|n| (0..=DOMAINS_MAX + 2).map(move |c| (n, c))) {
        let (table, list) = (Shape::new(n, 1).words(), my_rights(0).words());
        take(Given::Run(lent(&table, &list, ANSWER_WORDS, count)));
    }
}

/// The longest lists of one kind of call each, so that each kind is met at every place of a
/// list: of a word alone, and of calls that are done.
fn long_lists(take: &mut Take) {
    let table = Shape::new(2, 2).with_rights(|_, _| right::ALL).words();
    let alone = (0..=STRAY).map(|kind| vec![call_word(kind, 0, 0, 0, 0)]);
    let calls = [
        look_up(0, spread(0)).words(),
        send(0, 0, 1).words(),
        [send(0, 0, 1).words(), receive(0, 0).words()].concat(),
        grant(0, 1, 1, right::SEND).words(),
        revoke(0, 1, 1, right::SEND).words(),
        [
            grant(0, 1, 1, right::ALL).words(),
            remove(1, 1, right::ALL).words(),
        ]
        .concat(),
    ];
    for words in alone.chain(calls) {
        for less in 0..2 {
            let list = words.iter().copied().cycle().take(LIST_WORDS_MAX - less);
            run_of(&table, list.collect(), take);
        }
    }
}

/// A table of a size with queues of each capacity: everybody asks for everything, every name
/// is looked up, every queue is sent to and received from, and the last domain gives on a
/// right, takes it back and gives it up.
fn every_capacity(n: usize, m: usize, take: &mut Take) {
    for capacity in 1..=SLOTS {
        let mut shape = Shape::new(n, m).with_rights(|_, _| right::ALL);
        for queue in &mut shape.queues {
            queue.capacity = capacity;
            queue.messages = (1..capacity).map(spread).collect();
        }
        let (table, last) = (shape.words(), n - 1);
        let names = (0..m).flat_map(|e| look_up(last, spread(e)).words());
        let rights = [
            revoke(last, last, 0, right::SEND),
            grant(last, last, 0, right::SEND),
            remove(last, 0, right::ALL),
        ];
        let rights = rights.iter().flat_map(Call::words);
        let list = ask_all(&table).into_iter().chain(names).chain(rights);
        run_of(&table, list.collect(), take);
    }
}

/// A table of a size whose first or last rights word, or one word of whose first or last
/// endpoint, is of another kind.
fn first_and_last(n: usize, m: usize, take: &mut Take) {
    let table = Shape::new(n, m).words();
    let endpoints = [n * n + 1, table.len().saturating_sub(ENDPOINT_WORDS)];
    let endpoints = endpoints.into_iter().filter(|_| m > 0);
    let words = endpoints.flat_map(|start| start..start + ENDPOINT_WORDS);
    for place in [1, n * n].into_iter().chain(words) {
        let mut damaged = table.clone();
        damaged[place] ^= 0x8000_0000;
        run_of(&damaged, my_rights(0).words(), take);
    }
}

/// What lists are filled with: calls of one word, calls of two, and calls of two whose
/// second words are missing now and then.
const FILLS: [fn(usize) -> Vec<u32>; 3] = [
    |_| my_rights(0).words(),
    |number| look_up(0, number as u32).words(),
    |number| {
        let call = send(0, 0, number as u32);
        let second = call.second.filter(|_| number % 3 != 0);
        Call { second, ..call }.words()
    },
];

/// A list of just so many words after some of one word: what a list's end cuts in two is
/// cut in two.
fn filled(fill: fn(usize) -> Vec<u32>, words: usize, first: usize) -> Vec<u32> {
    let before = vec![my_rights(0).first; first];
    let rest = (0..).flat_map(fill);
    before.into_iter().chain(rest).take(words).collect()
}

/// A list with just the answer space that it needs and far more; where asked for, with one
/// word less and one more, with two less and with none too.
fn spaces(table: &[u32], list: &[u32], all: bool, take: &mut Take) {
    let enough = ANSWER_WORDS * cut(list).len();
    let near = [
        enough.saturating_sub(1),
        enough + 1,
        enough.saturating_sub(2),
        0,
    ];
    let near = near.into_iter().filter(|_| all);
    for space in [enough, enough + 5000].into_iter().chain(near) {
        take(Given::Run(lent(table, list, space, domains(table))));
    }
}

/// A run with so many words of answer space and for the holders.
pub fn lent(table: &[u32], list: &[u32], space: usize, holders: usize) -> Case {
    let mut lent = holders_for(table);
    lent.resize(holders, 0xC0DE_0077);
    Case {
        table: table.to_vec(),
        list: list.to_vec(),
        answers: (0..space as u32).map(|place| 0xC0DE_0000 ^ place).collect(),
        holders: lent,
    }
}

/// Lists of no call, of some and of the most with every number of words for the holders up
/// to some more than the largest table has, and with numbers whose low bytes are n; and with
/// answer spaces likewise.
fn holders(table: &[u32], take: &mut Take) {
    let n = domains(table);
    let far = [n + 16, n + 32, n + 256, n + 65_536];
    for words in [0, 1, 5, LIST_WORDS_MAX] {
        let list = filled(FILLS[0], words, 0);
        for count in (0..=18).chain(far) {
            let case = lent(table, &list, ANSWER_WORDS * words, count);
            take(Given::Run(case));
        }
    }
    let list = filled(FILLS[0], 5, 0);
    for space in [256, 257, 65_536, 65_537, 65_550, 65_551, 131_072] {
        take(Given::Run(lent(table, &list, space, n)));
    }
}

/// The table with so many words more that the low bytes of its length are its own again.
fn lengths(table: &[u32], take: &mut Take) {
    let list = filled(FILLS[0], 5, 0);
    for more in [256, 512, 1024, 4096, 16_384, 65_536] {
        let longer = [table, &vec![0xF000_0000; more]].concat();
        take(Given::Run(Case {
            table: longer,
            ..lent(table, &list, 15, domains(table))
        }));
    }
}
