//! Turns for the spring model (document 02, request (m)): rows for the order of turns and
//! for what is handed in, the codes on both sides and their order, and drawn events
//! against a log of everything that was handed in, out of which each turn is worked out
//! anew.

use crate::support::{call, code_of, place, rights_table, run_from, shown, table_with, UNTOUCHED};
use reference::example::TABLE_T;
use reference::generate::{
    call_word, call_words, damaged_table, events, lent_panel, table, Event, Rng,
};
use reference::table::domains;
use reference::turns::{Turn, Turns};
use reference::{cut, holders, step, Call};

/// A domain asks for its rights.
fn ask(domain: usize) -> u32 {
    call_word(5, domain, 0, 0, 0)
}

/// Hands in one-word calls, each for its caller.
fn hand_in_all(turns: &mut Turns, table: &[u32], words: &[u32]) {
    for word in words {
        assert_eq!(turns.hand_in(table, word >> 22 & 63, &[*word]), 0);
    }
}

/// The callers that turns serve until one is idle.
fn served_until_idle(turns: &mut Turns, table: &mut [u32]) -> Vec<u32> {
    let mut callers = Vec::new();
    let mut panel = vec![0; domains(table)];
    while let Ok(Turn::Served { call, .. }) = turns.turn(table, &mut panel) {
        callers.extend(call.caller());
    }
    callers
}

/// One turn with enough of the panel's words.
fn one_turn(turns: &mut Turns, table: &mut [u32]) -> Turn {
    let mut panel = vec![0; domains(table)];
    turns.turn(table, &mut panel).unwrap()
}

#[test]
fn it_begins_with_nothing_pending() {
    let mut turns = Turns::begin();
    assert!((0..16).all(|d| turns.pending(d).is_empty()));
    assert_eq!(turns.place(), 0);
    let (mut table, mut panel) = (TABLE_T.to_vec(), [UNTOUCHED; 3]);
    assert_eq!(turns.turn(&mut table, &mut panel), Ok(Turn::Idle));
    // An idle turn changes nothing, the panel's words neither.
    assert!(table == TABLE_T && panel == [UNTOUCHED; 3] && turns == Turns::begin());
}

#[test]
fn turns_go_up_and_round() {
    let mut table = TABLE_T.to_vec();
    let mut turns = Turns::begin();
    hand_in_all(&mut turns, &table, &[0, 0, 1, 1, 1, 2].map(ask));
    assert_eq!(
        served_until_idle(&mut turns, &mut table),
        [0, 1, 2, 0, 1, 1]
    );
    // The last served was 1, however many idle turns came since.
    assert_eq!(one_turn(&mut turns, &mut table), Turn::Idle);
    hand_in_all(&mut turns, &table, &[0, 1, 2].map(ask));
    assert_eq!(served_until_idle(&mut turns, &mut table), [2, 0, 1]);
    // The first turn of all starts at 0, and passes over who has none.
    let mut turns = Turns::begin();
    hand_in_all(&mut turns, &table, &[2, 1].map(ask));
    assert_eq!(served_until_idle(&mut turns, &mut table), [1, 2]);
    hand_in_all(&mut turns, &table, &[2, 2].map(ask));
    assert_eq!(served_until_idle(&mut turns, &mut table), [2, 2]);
}

/// Whoever hands in as much as it can, each of n domains is served within n turns.
#[test]
fn the_longest_wait_is_n_turns() {
    for n in 1..=16 {
        let mut table = rights_table(n, &[]);
        for patient in 0..n {
            let mut turns = Turns::begin();
            // The others are pending first, and always again, and the turn is just past.
            let others: Vec<usize> = (0..n).filter(|&d| d != patient).collect();
            hand_in_all(&mut turns, &table, &[ask(patient)]);
            assert_eq!(served_until_idle(&mut turns, &mut table), [patient as u32]);
            for &d in &others {
                hand_in_all(&mut turns, &table, &[d; 8].map(ask));
            }
            hand_in_all(&mut turns, &table, &[ask(patient)]);
            let mut waited = 0;
            while !turns.pending(patient).is_empty() {
                one_turn(&mut turns, &mut table);
                waited += 1;
                assert!(waited <= n, "domain {patient} of {n}");
                for &d in &others {
                    turns.hand_in(&table, d as u32, &[ask(d)]);
                }
            }
            assert_eq!(waited, n);
        }
    }
}

#[test]
fn a_call_served_is_a_step_and_sets_the_panels_words() {
    let mut table = TABLE_T.to_vec();
    let mut turns = Turns::begin();
    // Domain 1 grants domain 0 SEND on domain 2; domain 0 sends to endpoint 1.
    let grant = call(&[0x6042_0001]);
    let send = call(&[0x2000_0100, 0xF000_0005]);
    assert_eq!(turns.hand_in(&table, 1, &grant.words()), 0);
    let mut panel = [UNTOUCHED; 3];
    let served = turns.turn(&mut table, &mut panel).unwrap();
    let answer = [0x6040_0000, 0, 0];
    assert_eq!(
        served,
        Turn::Served {
            call: grant,
            answer
        }
    );
    assert_eq!(panel, [0b010, 0b001, 0b011]);
    assert_eq!(turns.hand_in(&table, 0, &send.words()), 0);
    panel.fill(UNTOUCHED);
    let served = turns.turn(&mut table, &mut panel).unwrap();
    let answer = [0x2000_0000, 0, 0];
    assert_eq!(served, Turn::Served { call: send, answer });
    assert_eq!(panel, [0b010, 0b001, 0b011]);
    let expected = table_with(&[
        (place::rights(0, 2), 0x2000_0001),
        (place::WAITING_1, 0x5000_0001),
        (place::SLOTS_1, 0xF000_0005),
    ]);
    assert_eq!(table, expected);
}

/// Calls that will be refused are handed in like any other, and are served once.
#[test]
fn refused_calls_are_served() {
    let mut table = TABLE_T.to_vec();
    for (words, code) in [
        (vec![0x1000_0000], 14),
        (vec![0x2000_0100], 14),
        (vec![0x2000_0100, 0xF000_0001], 17),
        (vec![0x0000_0000], 11),
        (vec![0xE03F_FFFF], 11),
        (vec![0x5000_0001], 13),
        (vec![0x3000_0100], 18),
    ] {
        let mut turns = Turns::begin();
        assert_eq!(turns.hand_in(&table, 0, &words), 0);
        assert_eq!(turns.pending(0), words);
        match one_turn(&mut turns, &mut table) {
            Turn::Served { call, answer } => {
                assert_eq!((call.words(), code_of(&answer)), (words, code));
            }
            Turn::Idle => panic!("a call is pending"),
        }
        assert_eq!(one_turn(&mut turns, &mut table), Turn::Idle);
        assert_eq!(table, TABLE_T);
    }
}

/// What a call served leaves isn't taken for the second word of one that comes after it,
/// and neither is the first word of the next.
#[test]
fn words_are_used_again() {
    let mut table = TABLE_T.to_vec();
    let mut turns = Turns::begin();
    for (words, code) in [
        (vec![0x2040_0100, 0xF000_0005], 0),
        (vec![0x2040_0100], 14),
        (vec![0x1040_0000, 0xF000_0012], 0),
        (vec![0x1040_0000], 14),
    ] {
        assert_eq!(turns.hand_in(&table, 1, &words), 0);
        let Turn::Served { call, answer } = one_turn(&mut turns, &mut table) else {
            panic!("a call is pending");
        };
        assert_eq!((call.words(), code_of(&answer)), (words, code));
    }
    let pair = [vec![0x2040_0100], vec![0x2040_0100, 0xF000_0007]];
    for words in &pair {
        assert_eq!(turns.hand_in(&table, 1, words), 0);
    }
    for words in pair {
        let Turn::Served { call, .. } = one_turn(&mut turns, &mut table) else {
            panic!("a call is pending");
        };
        assert_eq!(call.words(), words);
    }
}

/// Asserts that handing in is refused and changes nothing.
fn is_refused(turns: &Turns, table: &[u32], domain: u32, words: &[u32], code: u32) {
    let mut after = turns.clone();
    let answer = after.hand_in(table, domain, words);
    assert_eq!(answer, code, "domain {domain}, {}", shown(0, table, words));
    assert_eq!(&after, turns);
}

#[test]
fn code_35_domain_not_below_n() {
    let turns = Turns::begin();
    for domain in [3, 4, 15, 16, 63, 64, u32::MAX] {
        is_refused(
            &turns,
            &TABLE_T,
            domain,
            &[call_word(5, domain as usize & 63, 0, 0, 0)],
            35,
        );
        // Before 36.
        is_refused(&turns, &TABLE_T, domain, &[], 35);
    }
    assert_eq!(Turns::begin().hand_in(&TABLE_T, 2, &[ask(2)]), 0);
}

#[test]
fn code_36_not_exactly_one_call_of_the_domain() {
    let mut full = Turns::begin();
    hand_in_all(&mut full, &TABLE_T, &[ask(1); 16]);
    for turns in [Turns::begin(), full] {
        for words in [
            &[][..],
            &[0xF000_0000],
            &[0xF040_0000],
            &[ask(0)],
            &[ask(2)],
            &[ask(17)],
            &[ask(1), ask(1)],
            &[ask(1), 0xF000_0000],
            &[0x2040_0100, 0xF000_0000, 0xF000_0000],
            &[0x2040_0100, 0x2040_0100],
            &[0x2000_0100, 0xF000_0000],
            &[0xF000_0000, ask(1)],
        ] {
            // Before 37 too.
            is_refused(&turns, &TABLE_T, 1, words, 36);
        }
        is_refused(&turns, &TABLE_T, 1, &[ask(1); 17], 36);
    }
}

#[test]
fn code_37_more_than_16_pending_words() {
    let send = [0x2040_0100, 0xF000_0005];
    let mut table = TABLE_T.to_vec();
    let mut turns = Turns::begin();
    for count in 0..8 {
        assert_eq!(turns.pending(1).len(), 2 * count);
        assert_eq!(turns.hand_in(&table, 1, &send), 0);
    }
    is_refused(&turns, &table, 1, &send, 37);
    is_refused(&turns, &table, 1, &[ask(1)], 37);
    // Another domain has words of its own.
    assert_eq!(turns.hand_in(&table, 0, &[ask(0)]), 0);
    one_turn(&mut turns, &mut table);
    is_refused(&turns, &table, 1, &[ask(1)], 37);
    one_turn(&mut turns, &mut table);
    assert_eq!(turns.hand_in(&table, 1, &[ask(1)]), 0);
    is_refused(&turns, &table, 1, &send, 37);
    assert_eq!(turns.hand_in(&table, 1, &[ask(1)]), 0);
    assert_eq!(turns.pending(1).len(), 16);
}

/// The table's codes come first, on handing in and on a turn, and change nothing.
#[test]
fn damaged_tables_refuse_first() {
    let mut turns = Turns::begin();
    hand_in_all(&mut turns, &TABLE_T, &[0, 1, 1, 2].map(ask));
    for seed in 0..400 {
        let rng = &mut Rng::new(seed);
        let (damaged, code) = damaged_table(rng, 5, 5);
        let text = shown(seed, &damaged, &[]);
        for domain in [0, 99] {
            is_refused(&turns, &damaged, domain, &[ask(0)], code);
            is_refused(&turns, &damaged, domain, &[], code);
        }
        let panel = lent_panel(rng, 3);
        let (mut after, mut table, mut left) = (turns.clone(), damaged.clone(), panel.clone());
        assert_eq!(after.turn(&mut table, &mut left), Err(code), "{text}");
        assert!(
            after == turns && table == damaged && left == panel,
            "{text}"
        );
    }
}

#[test]
fn code_6_other_than_n_of_the_panels_words() {
    let mut pending = Turns::begin();
    hand_in_all(&mut pending, &TABLE_T, &[0x6042_0001]);
    for turns in [Turns::begin(), pending] {
        for lent in [0, 1, 2, 4, 16, 17] {
            let mut after = turns.clone();
            let (mut table, mut panel) = (TABLE_T.to_vec(), vec![UNTOUCHED; lent]);
            assert_eq!(after.turn(&mut table, &mut panel), Err(6));
            assert!(after == turns && table == TABLE_T);
            assert_eq!(panel, vec![UNTOUCHED; lent]);
        }
    }
}

/// Where a table of fewer domains is lent, the others' calls stay.
#[test]
fn a_table_of_fewer_domains() {
    let mut turns = Turns::begin();
    hand_in_all(&mut turns, &rights_table(5, &[]), &[1, 4, 4].map(ask));
    let served = |turns: &mut Turns, n| served_until_idle(turns, &mut rights_table(n, &[]));
    assert_eq!(served(&mut turns, 2), [1]);
    assert_eq!(turns.place(), 2);
    assert_eq!(served(&mut turns, 1), []);
    hand_in_all(&mut turns, &rights_table(1, &[]), &[ask(0)]);
    assert_eq!(served(&mut turns, 1), [0]);
    assert_eq!(served(&mut turns, 5), [4, 4]);
}

/// Everything that was handed in, in order, and which of it was served.
struct Log {
    n: usize,
    handed_in: Vec<(usize, Vec<u32>, bool)>,
    last: usize,
}

impl Log {
    fn pending(&self, domain: usize) -> Vec<u32> {
        let left = |entry: &&(usize, Vec<u32>, bool)| entry.0 == domain && !entry.2;
        let words = self
            .handed_in
            .iter()
            .filter(left)
            .map(|entry| entry.1.clone());
        words.collect::<Vec<_>>().concat()
    }

    /// What handing in must answer, given an accepted table.
    fn hand_in(&mut self, domain: u32, words: &[u32]) -> u32 {
        let pair =
            matches!(words, [first, second] if matches!(first >> 28, 1 | 2) && second >> 28 == 15);
        let one = matches!(words, [first] if first >> 28 != 15);
        if u64::from(domain) >= self.n as u64 {
            return 35;
        }
        if !(pair || one) || words[0] >> 22 & 63 != domain {
            return 36;
        }
        if self.pending(domain as usize).len() + words.len() > 16 {
            return 37;
        }
        self.handed_in
            .push((domain as usize, words.to_vec(), false));
        0
    }

    /// The domain and the words that a turn must serve.
    fn turn(&mut self) -> Option<(usize, Vec<u32>)> {
        for step in 1..=self.n {
            let domain = (self.last + step) % self.n;
            for entry in &mut self.handed_in {
                if entry.0 == domain && !entry.2 {
                    entry.2 = true;
                    self.last = domain;
                    return Some((domain, entry.1.clone()));
                }
            }
        }
        None
    }
}

/// How often each answer was met, and how long the longest waits were.
#[derive(Default, Debug)]
struct Met {
    handed_in: usize,
    codes: [usize; 3],
    served: usize,
    idle: usize,
    code_6: usize,
    /// Calls that were served just at the n-th turn, of several domains.
    waited_n: usize,
    done: usize,
}

/// The turns that the oldest pending call of each domain has waited, idle or not.
struct Waits(Vec<usize>);

impl Waits {
    /// After a turn that isn't refused: nobody waits longer than n.
    fn turned(&mut self, log: &Log, served: Option<usize>, met: &mut Met, text: &str) {
        for (domain, waited) in self.0.iter_mut().enumerate() {
            *waited += 1;
            if served == Some(domain) {
                assert!(*waited <= log.n, "domain {domain}, {text}");
                met.waited_n += usize::from(log.n > 1 && *waited == log.n);
            }
            if served == Some(domain) || log.pending(domain).is_empty() {
                *waited = 0;
            }
            assert!(*waited < log.n, "domain {domain}, {text}");
        }
    }
}

/// The turns, the table and the log as events leave them.
struct Course {
    turns: Turns,
    now: Vec<u32>,
    log: Log,
    waits: Waits,
    served: Vec<(Call, [u32; 3])>,
}

impl Course {
    fn begin(start: &[u32]) -> Course {
        let n = domains(start);
        Course {
            turns: Turns::begin(),
            now: start.to_vec(),
            log: Log {
                n,
                handed_in: Vec::new(),
                last: n - 1,
            },
            waits: Waits(vec![0; n]),
            served: Vec::new(),
        }
    }

    fn hand_in(&mut self, domain: u32, words: &[u32], met: &mut Met, text: &str) {
        let before = self.turns.clone();
        let code = self.turns.hand_in(&self.now, domain, words);
        assert_eq!(code, self.log.hand_in(domain, words), "{text}");
        match code {
            0 => met.handed_in += 1,
            _ => {
                assert_eq!(self.turns, before, "{text}");
                met.codes[code as usize - 35] += 1;
            }
        }
    }

    fn turn(&mut self, panel: &[u32], met: &mut Met, text: &str) {
        let before = (self.turns.clone(), self.now.clone(), panel.to_vec());
        let mut left = panel.to_vec();
        let answer = self.turns.turn(&mut self.now, &mut left);
        let Ok(Turn::Served { call, answer }) = answer else {
            let after = (self.turns.clone(), self.now.clone(), left);
            assert!(after == before, "{text}");
            return self.not_served(answer, panel.len(), met, text);
        };
        let (domain, words) = self.log.turn().expect("a call is pending");
        assert_eq!(call.words(), words, "{text}");
        assert_eq!(left, holders(&self.now), "{text}");
        assert_eq!(self.turns.place(), domain + 1, "{text}");
        self.waits.turned(&self.log, Some(domain), met, text);
        self.served.push((call, answer));
        met.served += 1;
        met.done += usize::from(code_of(&answer) == 0);
    }

    fn not_served(&mut self, answer: Result<Turn, u32>, lent: usize, met: &mut Met, text: &str) {
        if lent != self.log.n {
            assert_eq!(answer, Err(6), "{text}");
            met.code_6 += 1;
            return;
        }
        assert_eq!(answer, Ok(Turn::Idle), "{text}");
        assert_eq!(self.log.turn(), None, "{text}");
        self.waits.turned(&self.log, None, met, text);
        met.idle += 1;
    }
}

/// Lets all events happen, with all that must be so after each and at the end.
fn check_events(seed: u64, start: &[u32], events: &[Event], met: &mut Met) {
    let text = &shown(seed, start, &[]);
    let mut course = Course::begin(start);
    for event in events {
        match event {
            Event::HandIn { domain, words } => course.hand_in(*domain, words, met, text),
            Event::Turn { panel } => course.turn(panel, met, text),
        }
        for domain in 0..domains(start) {
            let pending = course.log.pending(domain);
            assert_eq!(course.turns.pending(domain), pending, "{text}");
        }
    }
    as_one_list(start, &course.served, &course.now, text);
    in_order(&course.log, &course.served, text);
}

/// The calls served get the answers, and leave the table, of the machine fed with their
/// words as one list; and of a run where that can have so many.
fn as_one_list(start: &[u32], served: &[(Call, [u32; 3])], left: &[u32], text: &str) {
    let list: Vec<u32> = served.iter().flat_map(|(call, _)| call.words()).collect();
    let answers: Vec<[u32; 3]> = served.iter().map(|&(_, answer)| answer).collect();
    let mut now = start.to_vec();
    let machine: Vec<[u32; 3]> = cut(&list).iter().map(|call| step(&mut now, call)).collect();
    assert!(answers == machine && left == now, "{text}");
    if list.len() <= 4096 {
        let ran = run_from(start, &list);
        assert_eq!((ran.code, ran.count as usize), (0, served.len()), "{text}");
        assert!(
            ran.answers.starts_with(&answers.concat()) && ran.table == left,
            "{text}"
        );
    }
}

/// Each domain's calls are served in the order in which they were handed in.
fn in_order(log: &Log, served: &[(Call, [u32; 3])], text: &str) {
    for domain in 0..log.n {
        let calls = served.iter().map(|(call, _)| call);
        let own = calls.filter(|call| call.caller() == Some(domain as u32));
        let own: Vec<Vec<u32>> = own.map(Call::words).collect();
        let handed_in = log.handed_in.iter().filter(|entry| entry.0 == domain);
        let handed_in: Vec<Vec<u32>> = handed_in.map(|entry| entry.1.clone()).collect();
        assert!(handed_in.starts_with(&own), "domain {domain}, {text}");
    }
}

#[test]
fn drawn_events() {
    let mut met = Met::default();
    for seed in 0..300 {
        let rng = &mut Rng::new(seed);
        let start = table(rng, 6, 5);
        let events = events(rng, &start, 150);
        check_events(seed, &start, &events, &mut met);
    }
    for seed in 0..10 {
        let rng = &mut Rng::new(seed);
        let start = table(rng, 16, 32);
        let events = events(rng, &start, 400);
        check_events(seed, &start, &events, &mut met);
    }
    assert!(met.codes.iter().all(|&times| times > 400), "{met:?}");
    assert!(met.handed_in > 10_000 && met.served > 9_000, "{met:?}");
    assert!(met.idle > 2_000 && met.code_6 > 1_000, "{met:?}");
    assert!(met.waited_n > 1_000 && met.done > 4_000, "{met:?}");
}

/// The calls served can be more than a list can have.
#[test]
fn more_calls_are_served_than_a_list_has() {
    let rng = &mut Rng::new(1);
    let start = table(rng, 6, 6);
    let mut now = start.clone();
    let mut turns = Turns::begin();
    let mut served = Vec::new();
    while served.len() < 5000 {
        let one = cut(&call_words(rng, &now))[0];
        turns.hand_in(&now, one.caller().unwrap_or(63), &one.words());
        if let Turn::Served { call, answer } = one_turn(&mut turns, &mut now) {
            served.push((call, answer));
        }
    }
    as_one_list(&start, &served, &now, "5,000 calls");
}
