//! Tables and calls that are made to cost as much as possible: what the largest counts of
//! instructions are found on. They are tried, and nothing proves that none costs more.

use reference::calls::{GRANT, LOOK_UP, MY_ENDPOINTS, MY_RIGHTS, RECEIVE, REMOVE, REVOKE, SEND};
use reference::generate::call_word;
use reference::table::{
    endpoint_words_mut, LOST, LOST_PLACE, NAME, NAME_PLACE, RIGHTS, SLOTS, SLOTS_PLACE, WAITING,
    WAITING_PLACE,
};
use reference::words::word;

use crate::cases::workloads::{closed_table, refused};
use line::cases::tables::{second, table_with};

/// Domains and endpoints: the most of both, and one domain less, where rows end between the
/// words that are gone over at a time. Of the sizes that were tried these two cost most.
pub const SIZES: [(usize, usize); 2] = [(15, 32), (16, 32)];

/// Names that share a hint of the working layout, and so a flag of the check: looked for
/// and compared one by one, since neither distinguishes them.
fn names() -> impl Iterator<Item = u32> {
    (1..1 << 28).filter(|&name| hint(name) == 0)
}

fn hint(name: u32) -> u64 {
    u64::from(name) * 0x9E37_79B1 / 0x40_0000 % 1024
}

/// A table of such names and of full queues.
fn filled(mut table: Vec<u32>, m: usize) -> Vec<u32> {
    for (endpoint, name) in names().take(m).enumerate() {
        let words = endpoint_words_mut(&mut table, endpoint);
        words[NAME_PLACE] = word(NAME, name);
        words[WAITING_PLACE] = word(WAITING, SLOTS as u32);
        words[LOST_PLACE] = word(LOST, 7);
        words[SLOTS_PLACE..].fill(second(7));
    }
    table
}

/// The table of these rights, filled, all its endpoints the last domain's.
pub fn table_of(rights: &[u32], n: usize, m: usize) -> Vec<u32> {
    filled(table_with(rights, n, &vec![n - 1; m]), m)
}

/// The table in which everyone may do everything.
pub fn largest(n: usize, m: usize) -> Vec<u32> {
    table_of(&vec![15; n * n], n, m)
}

/// A few calls of a kind, to be made again and again on a table.
pub struct Calls {
    pub kind: &'static str,
    pub table: Vec<u32>,
    pub words: Vec<u32>,
}

impl Calls {
    /// A list of so many words. The last call may be cut, and is then refused.
    pub fn list(&self, words: usize) -> Vec<u32> {
        self.words.iter().copied().cycle().take(words).collect()
    }
}

/// The calls of each kind, done on the largest table, and those that are refused.
pub fn calls(n: usize, m: usize) -> Vec<Calls> {
    let last = n - 1;
    let named = |at| {
        vec![
            call_word(LOOK_UP, last, 0, 0, 0),
            second(names().nth(at).unwrap_or(1)),
        ]
    };
    let send = [call_word(SEND, last, 0, m - 1, 0), second(9)];
    let receive = call_word(RECEIVE, last, 0, m - 1, 0);
    let grant = call_word(GRANT, 0, last, last, 1);
    let done = [
        ("look up", named(0)),
        ("look up", named(m - 1)),
        ("look up", named(m)),
        ("send", send.to_vec()),
        ("receive and send", [&[receive], &send[..]].concat()),
        ("my endpoints", vec![call_word(MY_ENDPOINTS, last, 0, 0, 0)]),
        ("my endpoints", vec![call_word(MY_ENDPOINTS, 0, 0, 0, 0)]),
        ("my rights", vec![call_word(MY_RIGHTS, last, 0, 0, 0)]),
        ("grant", vec![call_word(GRANT, last, last, 0, 15)]),
        (
            "remove and grant",
            vec![call_word(REMOVE, last, last, 0, 1), grant],
        ),
        ("revoke", vec![call_word(REVOKE, last, 0, 1, 15)]),
    ];
    let table = |kind, words| (kind, largest(n, m), words);
    let done = done.into_iter().map(|(kind, words)| table(kind, words));
    let closed = filled(closed_table(n, m), m);
    let refused = refused(n, m).map(|words| ("refused", closed.clone(), words));
    let all = done.chain(refused);
    all.map(|(kind, table, words)| Calls { kind, table, words })
        .collect()
}

/// Sixteen rows of rights, a digit each, for which the closure of grants takes long: rounds
/// in which almost all give almost everything, and each time one right more. Found by
/// altering one right after another and keeping what took longer.
const SLOW: [u64; 16] = [
    0x2F32_402F_2F23_3222,
    0xF100_100F_3F31_0F14,
    0x02F3_1041_1320_420F,
    0xF130_1000_444F_F343,
    0xF3F4_1021_0221_1430,
    0x0222_2300_0000_0000,
    0x1431_1F40_43F2_0330,
    0x0000_1201_012F_0441,
    0x0040_1013_034F_0240,
    0x22F1_101F_F0F0_14F3,
    0x0F32_1440_0201_20F4,
    0x4141_140F_1341_020F,
    0x3312_1200_0040_4FF1,
    0x1030_144F_0030_4001,
    0x2F22_14F4_01F4_0021,
    0x100F_1F24_3300_3011,
];

fn matrix(held: impl Fn(usize, usize) -> u32) -> Vec<u32> {
    (0..256).map(|at| held(at / 16, at % 16)).collect()
}

/// Rights among sixteen domains: the first so many have all on each other, and from the
/// last of them a chain goes on to the end. The more are in the chain, the more rounds a
/// question takes; the fewer, the more each costs.
fn chains() -> Vec<Vec<u32>> {
    let linked = |first: usize, u: usize, v: usize| u.max(v) < first || u.abs_diff(v) == 1;
    let rights = |first| matrix(|u, v| 15 * u32::from(linked(first, u, v)));
    (1..=16).map(rights).collect()
}

/// The chains, and what grants spread slowly in.
pub fn spreading() -> Vec<Vec<u32>> {
    let down = matrix(|u, v| 15 * u32::from(u == v + 1));
    let slow = matrix(|u, v| (SLOW[u] >> (60 - 4 * v)) as u32 & 15);
    chains().into_iter().chain([down, slow]).collect()
}

/// Who holds a right on whom by such rights, a word for each domain.
pub fn holders(rights: &[u32]) -> Vec<u32> {
    let held = |v: usize| (0..16).filter(move |u| rights[16 * u + v] != 0);
    (0..16).map(|v| held(v).map(|u| 1 << u).sum()).collect()
}

/// A table in which every word that can be mended is broken: the top bit of each, or of the
/// last slot alone among those of a queue.
pub fn broken(whole_queues: bool) -> Vec<u32> {
    let mut table = largest(16, 32);
    table[1..=256].fill(word(RIGHTS, 16));
    for endpoint in 0..32 {
        let words = endpoint_words_mut(&mut table, endpoint);
        let from = if whole_queues { WAITING_PLACE } else { 11 };
        words[from..].iter_mut().for_each(|word| *word ^= 1 << 31);
    }
    table
}

#[cfg(test)]
mod tests {
    use super::*;
    use reference::words::bits;
    use std::collections::HashSet;

    #[test]
    fn names_share_a_hint_and_no_two_are_the_same() {
        let names: HashSet<u32> = names().take(33).collect();
        assert_eq!(names.len(), 33);
        assert!(names.iter().all(|&name| hint(name) == 0 && name < 1 << 28));
    }

    #[test]
    fn every_kind_is_served_as_it_is_named_however_long_the_list() {
        for (n, m) in SIZES {
            let mut codes = HashSet::new();
            for calls in calls(n, m) {
                let (mut table, mut answers) = (calls.table.clone(), vec![0; 3 * 4096]);
                let list = calls.list(4096);
                let (code, count) = reference::run(&mut table, &list, &mut answers);
                assert_eq!(code, 0, "{}", calls.kind);
                let codes_of = answers.chunks(3).take(count as usize - 1);
                let of: HashSet<u32> = codes_of.map(|answer| bits(answer[0], 15, 0)).collect();
                let done = of.len() == 1 && (of.contains(&0) || of.contains(&15));
                assert!(calls.kind == "refused" || done, "{}: {of:?}", calls.kind);
                codes.extend(of);
            }
            assert_eq!(codes.len(), 15, "n {n}, m {m}: {codes:?}");
        }
    }

    #[test]
    fn a_full_queue_stays_full_at_a_send() {
        let mut table = largest(16, 32);
        let send = &calls(16, 32)[3];
        reference::run(&mut table, &send.list(4096), &mut vec![0; 3 * 2048]);
        let words = endpoint_words_mut(&mut table, 31);
        assert_eq!(words[WAITING_PLACE], word(WAITING, 8));
        assert_eq!(words[LOST_PLACE], word(LOST, 7 + 2048));
    }

    #[test]
    fn a_chain_reaches_from_end_to_end() {
        for rights in chains() {
            let holders = holders(&rights);
            assert!(holders[15] >> 14 & 1 == 1 && holders.iter().all(|&word| word != 0));
        }
    }
}
