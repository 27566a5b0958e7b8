//! What the speed is measured on: tables, and sixty different lists of 4,096 words for
//! each, to be gone through in turn.
//!
//! The branch predictor learns one list that is run again and again. Sixty are too many for
//! that.
//!
//! Every list is drawn from a seed, and leaves every queue and every right as it was
//! after each few calls, so that its calls come to the same wherever they are in it
//! and whichever list ran before it.

use line::cases::tables::{open_table, second, table_with};
use reference::calls::{
    GRANT, LIST_WORDS_MAX, LOOK_UP, MY_ENDPOINTS, MY_RIGHTS, RECEIVE, REMOVE, REVOKE, SEND,
};
use reference::generate::{call_word, table_of, Rng};
use reference::table::{endpoint_place, name, SLOTS, SLOTS_PLACE, WAITING_PLACE};
use reference::words::content;

/// How many lists of a workload are gone through in turn.
pub const ROTATION: usize = 60;

/// A table and lists to run on it, each from this table: all of the same mix of calls,
/// and no two the same.
pub struct Workload {
    pub name: String,
    pub table: Vec<u32>,
    pub lists: Vec<Vec<u32>>,
    /// What the proved kernel's time over that of the faster plain C is to come to, on
    /// lists in rotation.
    pub goal: f64,
}

/// The generator of one workload among those that a seed gives.
pub fn rng(seed: u64, workload: u64) -> Rng {
    Rng::new(seed.wrapping_mul(64).wrapping_add(workload))
}

/// All workloads, with lists of 4,096 words.
pub fn workloads(seed: u64) -> Vec<Workload> {
    vec![
        send_and_receive(rng(seed, 1)),
        all_kinds(rng(seed, 2)),
        refusals(rng(seed, 3)),
        largest(rng(seed, 4)),
    ]
}

/// A small table and the largest, each with lists of one kind of call, or of two that
/// undo each other, done or refused: what a call costs alone. Then receives from
/// a queue with one message, and with eight.
pub fn by_kind(seed: u64) -> Vec<Workload> {
    let sizes = [(4, 4), (16, 32)];
    let of_sizes = sizes.iter().flat_map(|&(n, m)| of_each_kind(seed, n, m));
    let of_queues = [1, 8].map(|waiting| send_and_receive_at(rng(seed, 7), waiting));
    of_sizes.chain(of_queues).collect()
}

/// Who calls, somebody else, an endpoint and its owner, and a number of messages.
pub struct Drawn {
    caller: usize,
    other: usize,
    endpoint: usize,
    owner: usize,
    messages: usize,
}

impl Drawn {
    pub fn new(rng: &mut Rng, n: usize, owners: &[usize]) -> Drawn {
        let (caller, endpoint) = (rng.below(n), rng.below(owners.len()));
        Drawn {
            caller,
            other: (caller + 1) % n,
            endpoint,
            owner: owners[endpoint],
            messages: rng.between(1, SLOTS),
        }
    }

    fn send(&self) -> [u32; 2] {
        [call_word(SEND, self.caller, 0, self.endpoint, 0), second(7)]
    }

    fn receive(&self) -> u32 {
        call_word(RECEIVE, self.owner, 0, self.endpoint, 0)
    }
}

pub type Calls = fn(&Drawn) -> Vec<u32>;

const REMOVE_AND_GRANT: &str = "remove and grant";

/// A few calls of one kind or of two, which leave the table as it was.
pub const KINDS: [(&str, Calls); 8] = [
    ("look up", |it| {
        let name = second(101 + it.endpoint as u32);
        vec![call_word(LOOK_UP, it.caller, 0, 0, 0), name]
    }),
    ("send and receive", |it| {
        [&it.send()[..], &[it.receive()]].concat()
    }),
    ("my endpoints", |it| {
        vec![call_word(MY_ENDPOINTS, it.caller, 0, 0, 0)]
    }),
    ("my rights", |it| {
        vec![call_word(MY_RIGHTS, it.caller, 0, 0, 0)]
    }),
    (REMOVE_AND_GRANT, |it| {
        vec![
            call_word(REMOVE, it.caller, it.owner, 0, 1),
            call_word(GRANT, it.other, it.owner, it.caller, 1),
        ]
    }),
    ("revoke and grant", |it| {
        vec![
            call_word(REVOKE, it.caller, it.owner, it.other, 1),
            call_word(GRANT, it.caller, it.owner, it.other, 1),
        ]
    }),
    ("one to eight sends, then as many receives", |it| {
        [
            it.send().repeat(it.messages),
            vec![it.receive(); it.messages],
        ]
        .concat()
    }),
    ("unknown kind", |it| vec![call_word(9, it.caller, 0, 0, 0)]),
];

fn of_each_kind(seed: u64, n: usize, m: usize) -> Vec<Workload> {
    let (table, owners) = open_table(n, m);
    let mut rng = rng(seed, 6);
    let mut workload = |(name, calls): &(&str, Calls)| Workload {
        name: format!("{name}, n {n}, m {m}"),
        table: table.clone(),
        lists: in_rotation(call_word(9, 0, 0, 0, 0), || {
            calls(&Drawn::new(&mut rng, n, &owners))
        }),
        goal: if *name == REMOVE_AND_GRANT { 1.05 } else { 1.0 },
    };
    KINDS.iter().map(&mut workload).collect()
}

/// So many lists as are gone through in turn.
fn in_rotation(filler: u32, mut more: impl FnMut() -> Vec<u32>) -> Vec<Vec<u32>> {
    (0..ROTATION).map(|_| filled(filler, &mut more)).collect()
}

/// Repeats what `more` draws until the list has 4,096 words; where the last of it
/// doesn't fit, `filler` fills up.
fn filled(filler: u32, mut more: impl FnMut() -> Vec<u32>) -> Vec<u32> {
    let mut list = Vec::new();
    loop {
        let words = more();
        if list.len() + words.len() > LIST_WORDS_MAX {
            list.resize(LIST_WORDS_MAX, filler);
            return list;
        }
        list.extend(words);
    }
}

/// (i) Domain 0 sends, domain 1 receives. Only the messages are drawn: the order of the
/// calls is the same in all lists.
fn send_and_receive(mut rng: Rng) -> Workload {
    let lists = in_rotation(call_word(MY_RIGHTS, 0, 0, 0, 0), || {
        vec![
            call_word(SEND, 0, 0, 0, 0),
            second(content(rng.word())),
            call_word(RECEIVE, 1, 0, 0, 0),
        ]
    });
    Workload {
        name: "send and receive between two domains".to_string(),
        table: table_with(&[0, 1, 0, 0], 2, &[1]),
        lists,
        goal: 0.9,
    }
}

/// Domain 0 sends and domain 1 receives, with so many messages waiting at each
/// receive, in one of four queues. All messages are the same, so that the queue is as it
/// was after each.
fn send_and_receive_at(mut rng: Rng, waiting: usize) -> Workload {
    const MESSAGE: u32 = 7;
    let owners = [1; 4];
    let mut table = table_with(&[0, 1, 0, 0], 2, &owners);
    for endpoint in 0..owners.len() {
        let queue = endpoint_place(&table, endpoint);
        table[queue + WAITING_PLACE] += waiting as u32 - 1;
        table[queue + SLOTS_PLACE..][..waiting - 1].fill(second(MESSAGE));
    }
    Workload {
        name: format!("send and receive, {waiting} waiting"),
        table,
        lists: in_rotation(call_word(MY_RIGHTS, 0, 0, 0, 0), || {
            let endpoint = rng.below(owners.len());
            vec![
                call_word(SEND, 0, 0, endpoint, 0),
                second(MESSAGE),
                call_word(RECEIVE, 1, 0, endpoint, 0),
            ]
        }),
        goal: 1.0,
    }
}

/// (ii) All eight kinds, in an order drawn anew each time round; none is refused.
fn all_kinds(mut rng: Rng) -> Workload {
    // Domain 0 may do everything to all, domain 1 may remove on domain 2.
    let rights = [15, 15, 15, 15, 0, 0, 4, 0, 0, 0, 0, 0, 0, 0, 0, 0];
    let lists = in_rotation(call_word(MY_ENDPOINTS, 0, 0, 0, 0), || {
        let e = rng.below(4);
        let groups = [
            vec![call_word(LOOK_UP, e, 0, 0, 0), second(101 + e as u32)],
            vec![
                call_word(SEND, 0, 0, e, 0),
                second(rng.below(1000) as u32),
                call_word(RECEIVE, e, 0, e, 0),
            ],
            vec![call_word(MY_ENDPOINTS, e, 0, 0, 0)],
            vec![call_word(MY_RIGHTS, e, 0, 0, 0)],
            vec![call_word(GRANT, 0, 2, 1, 1), call_word(REMOVE, 1, 2, 0, 1)],
            vec![call_word(GRANT, 0, 2, 3, 1), call_word(REVOKE, 0, 2, 3, 1)],
        ];
        shuffled(groups, &mut rng).concat()
    });
    Workload {
        name: "mixed list of all eight kinds".to_string(),
        table: table_with(&rights, 4, &[0, 1, 2, 3]),
        lists,
        goal: 1.15,
    }
}

/// The same in an order that is drawn.
pub fn shuffled<const N: usize>(mut groups: [Vec<u32>; N], rng: &mut Rng) -> [Vec<u32>; N] {
    for last in (1..N).rev() {
        groups.swap(last, rng.between(0, last));
    }
    groups
}

/// A table for [`refused`]: domain 0 has GRANT and SEND on domain 1 and nothing on domain
/// 2, and domain 1 owns every endpoint. There are 3 domains at least and an endpoint.
pub fn closed_table(n: usize, m: usize) -> Vec<u32> {
    let mut rights = vec![0; n * n];
    rights[1] = 3;
    table_with(&rights, n, &vec![1; m])
}

/// Calls that are refused on that table, one for each code from 10 to 23; only the call
/// before the stray is done.
pub fn refused(n: usize, m: usize) -> [Vec<u32>; 14] {
    let grant =
        |caller, target, recipient, set| vec![call_word(GRANT, caller, target, recipient, set)];
    [
        vec![call_word(MY_RIGHTS, 0, 0, 0, 0), second(9)],
        vec![call_word(9, 0, 0, 0, 0)],
        vec![call_word(MY_RIGHTS, n, 0, 0, 0)],
        vec![call_word(RECEIVE, 0, 0, 0, 1)],
        vec![call_word(SEND, 0, 0, 0, 0)],
        vec![call_word(LOOK_UP, 0, 0, 0, 0), second(99)],
        vec![call_word(RECEIVE, 0, 0, m, 0)],
        vec![call_word(SEND, 2, 0, 0, 0), second(1)],
        vec![call_word(RECEIVE, 2, 0, 0, 0)],
        vec![call_word(RECEIVE, 1, 0, 0, 0)],
        grant(0, 1, n, 1),
        vec![call_word(REMOVE, 0, 1, 0, 0)],
        vec![call_word(REMOVE, 0, 1, 0, 1)],
        grant(0, 1, 2, 1),
    ]
}

/// (iii) Each code 10 to 23 as often as another.
fn refusals(mut rng: Rng) -> Workload {
    let (n, m) = (3, 1);
    let refused = refused(n, m);
    Workload {
        name: "list full of refusals".to_string(),
        table: closed_table(n, m),
        lists: in_rotation(call_word(9, 0, 0, 0, 0), || {
            refused[rng.below(refused.len())].clone()
        }),
        goal: 1.15,
    }
}

/// (iv) The largest table, with my rights and look up by each domain in turn.
fn largest(mut rng: Rng) -> Workload {
    let table = largest_table();
    let lists = in_rotation(call_word(MY_RIGHTS, 0, 0, 0, 0), || {
        let caller = rng.below(16);
        let name = name(&table, rng.below(32));
        vec![
            call_word(MY_RIGHTS, caller, 0, 0, 0),
            call_word(LOOK_UP, caller, 0, 0, 0),
            second(name),
        ]
    });
    Workload {
        name: "n 16, m 32, my rights and look up".to_string(),
        lists,
        table,
        goal: 1.3,
    }
}

/// A sound table of 16 domains and 32 endpoints, 641 words.
pub fn largest_table() -> Vec<u32> {
    table_of(&mut Rng::new(5), 16, 32)
}

#[cfg(test)]
mod tests {
    use super::*;
    use reference::cut;
    use reference::words::bits;
    use std::collections::HashSet;

    /// How often each code is answered, each kind is called, in one list.
    fn counted(workload: &Workload, list: &[u32]) -> ([usize; 24], [usize; 16]) {
        let calls = cut(list);
        let (mut table, mut answers) = (workload.table.clone(), vec![0; 3 * calls.len()]);
        let outcome = reference::run(&mut table, list, &mut answers);
        assert_eq!(outcome, (0, calls.len() as u32), "{}", workload.name);
        assert_eq!(table, workload.table, "{} comes back", workload.name);
        let (mut codes, mut kinds) = ([0; 24], [0; 16]);
        for answer in answers.chunks(3) {
            codes[bits(answer[0], 15, 0) as usize] += 1;
            kinds[bits(answer[0], 31, 28) as usize] += 1;
        }
        (codes, kinds)
    }

    /// The counts of every list of a workload.
    fn each(workload: &Workload) -> impl Iterator<Item = ([usize; 24], [usize; 16])> + '_ {
        workload.lists.iter().map(|list| counted(workload, list))
    }

    #[test]
    fn lists_have_4096_words_and_come_to_what_their_name_says() {
        let all = workloads(1);
        assert!(each(&all[0]).all(|(codes, _)| codes[0] == 2731));
        for (codes, kinds) in each(&all[1]) {
            assert!(codes[1..].iter().all(|&count| count == 0), "{codes:?}");
            assert!(kinds[1..=8].iter().all(|&count| count > 300), "{kinds:?}");
        }
        assert!(each(&all[3]).all(|(codes, kinds)| codes[0] == kinds[1] + kinds[5]));
    }

    #[test]
    fn a_workload_has_sixty_lists_and_no_two_the_same() {
        for workload in workloads(1).iter().chain(&by_kind(1)) {
            let different: HashSet<&[u32]> = workload.lists.iter().map(|list| &list[..]).collect();
            assert_eq!(different.len(), ROTATION, "{}", workload.name);
            assert!(different.iter().all(|list| list.len() == LIST_WORDS_MAX));
        }
    }

    #[test]
    fn another_seed_gives_other_lists() {
        let all = workloads(1).into_iter().zip(workloads(2));
        assert!(all.into_iter().all(|(one, other)| one.lists != other.lists));
    }

    #[test]
    fn a_list_of_one_kind_has_no_other_but_for_its_filling() {
        let all = by_kind(1);
        let kinds: [&[usize]; 8] = [&[1], &[2, 3], &[4], &[5], &[6, 7], &[6, 8], &[2, 3], &[9]];
        let (of_sizes, of_queues) = all.split_at(2 * kinds.len());
        assert_eq!(of_queues.len(), 2);
        for (codes, counts) in of_queues.iter().flat_map(each) {
            assert_eq!((counts[2], counts[3], codes[0]), (1365, 1365, 2731));
        }
        for (workload, own) in of_sizes.iter().zip(kinds.iter().chain(&kinds)) {
            for (codes, counts) in each(workload) {
                let calls: usize = counts.iter().sum();
                let of_own: usize = own.iter().map(|&kind| counts[kind]).sum();
                // What doesn't fit at the end is at most eight sends and receives.
                assert!(of_own + 24 > calls, "{}: {counts:?}", workload.name);
                let unknown = counts[9];
                assert_eq!((codes[0], codes[11]), (calls - unknown, unknown));
            }
        }
    }

    #[test]
    fn refusals_are_of_every_code() {
        for (codes, _) in each(&refusals(rng(1, 3))) {
            assert!(codes[10..].iter().all(|&count| count > 100), "{codes:?}");
            let done = codes[0];
            assert!(done < 400, "only the call before a stray is done: {done}");
        }
    }
}
