//! Answer spaces that are just enough or a few words short, for lists that begin, go on and
//! end with words of every kind: what is counted of a list shows, whichever of its words a
//! kernel would count wrongly.

use reference::calls::cut;
use reference::entry::ANSWER_WORDS;
use reference::table::domains;

use super::sizes::lent;
use super::{Given, Tables, Take};

/// The kinds of words, and the most words of the lists that have every kind at each place.
const KINDS: u32 = 16;
const WORDS: usize = 3;

/// The kinds that longer lists are filled with: calls of one word, first words without a
/// second, strays, an unknown kind; and their lengths, past what is counted together.
const FILLS: [&[u32]; 6] = [&[5], &[2], &[15], &[0], &[1, 15], &[15, 2]];
const LONGEST: usize = 36;

/// So many words the answer space is short, at most.
const SHORT: usize = 4;

/// The drill: every list of few words, and longer ones that end with a word of each kind.
pub fn ends(tables: &Tables, take: &mut Take) {
    let own = tables.own[1..2].iter().map(Vec::as_slice);
    for table in std::iter::once(&tables.line[..]).chain(own) {
        for words in 0..=WORDS {
            (0..KINDS.pow(words as u32)).for_each(|number| {
                let kind = |place: u32| number / KINDS.pow(place) % KINDS;
                spaces(table, &of_kinds((0..words as u32).map(kind)), take);
            });
        }
        for (words, last) in
            (WORDS..LONGEST).flat_map(|words| (0..KINDS).map(move |last| (words, last)))
        {
            for fill in FILLS {
                let filled = fill.iter().copied().cycle().take(words);
                spaces(table, &of_kinds(filled.chain([last])), take);
            }
        }
    }
}

/// Words of these kinds and nothing else.
fn of_kinds(kinds: impl Iterator<Item = u32>) -> Vec<u32> {
    kinds.map(|kind| kind << 28).collect()
}

/// A list with just the answer space that it needs, and with a few words less.
fn spaces(table: &[u32], list: &[u32], take: &mut Take) {
    let enough = ANSWER_WORDS * cut(list).len();
    for space in enough.saturating_sub(SHORT)..=enough {
        take(Given::Run(lent(table, list, space, domains(table))));
    }
}
