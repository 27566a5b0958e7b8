//! What a layer of turns makes of an event, beside what the reference makes of it; how
//! long calls wait; and the calls served as one list.

use std::collections::VecDeque;

use reference::calls::LIST_WORDS_MAX;
use reference::entry::ANSWER_WORDS;
use reference::table::domains;
use reference::turn_words::{self, length, DOMAIN_WORDS};
use reference::turns::PENDING_WORDS;
use reference::words::hex;
use reference::{cut, step, Call};

use crate::cases::Case;
use crate::judging::compare::{answer_as_printed, first_unequal};
use crate::judging::panics::or_panic;
use crate::kernels::boundary::{Outcome, PROVED};
use crate::kernels::layer::{Event, Left, Lent};
use crate::kernels::lent::run_here;
use crate::text::explain::{call_in_words, meaning};
use crate::text::names::Names;

/// What the reference makes of an event; an error where it panics, which is a
/// difference from a layer that answers.
pub fn separate_event(lent: &Lent, event: &Event) -> Result<Left, String> {
    or_panic(|| {
        let mut words = lent.clone();
        let (table, state) = (&mut words.table, &mut words.state);
        let (code, served) = match event {
            Event::Begin => (turn_words::begin(table, state, &mut words.holders), 0),
            Event::HandIn {
                domain,
                words: call,
            } => (turn_words::hand_in(table, state, *domain, call), 0),
            Event::Turn => turn_words::turn(table, state, &mut words.holders, &mut words.answer),
        };
        Left {
            code,
            served,
            words,
        }
    })
}

/// A part of what an event is lent.
type Part = fn(&Lent) -> &Vec<u32>;

/// The first difference between what a layer left and what is wanted.
pub fn difference(lent: &Lent, left: &Left, wanted: &Left) -> Option<String> {
    if (left.code, left.served) != (wanted.code, wanted.served) {
        return Some(format!(
            "the kernel's layer answers {}, the reference {}",
            in_words(left),
            in_words(wanted)
        ));
    }
    let served = wanted.code == 0 && wanted.served == 1;
    if served && left.words.answer[..3] != wanted.words.answer[..3] {
        return Some(format!(
            "the kernel's layer answers the call with {}, the reference with {}",
            answer_as_printed(&left.words.answer),
            answer_as_printed(&wanted.words.answer)
        ));
    }
    let parts: [(&str, Part); 4] = [
        ("answer space", |words| &words.answer),
        ("state", |words| &words.state),
        ("table", |words| &words.table),
        ("holders", |words| &words.holders),
    ];
    parts.iter().find_map(|(what, part)| {
        let (left, wanted) = (part(&left.words), part(&wanted.words));
        let place = first_unequal(left, wanted)?;
        Some(format!(
            "word {place} of the {what}, was {:08X}: the kernel's layer leaves {:08X}, the \
             reference {:08X}",
            part(lent)[place],
            left[place],
            wanted[place]
        ))
    })
}

/// What an event came to.
fn in_words(left: &Left) -> String {
    match (left.code, left.served) {
        (0, 0) => "0 (none served)".to_string(),
        (0, served) => format!("0 ({served} served)"),
        (code, served) => format!("{code} ({}) with {served} served", meaning(code)),
    }
}

/// The words of a domain in a state, however many there are.
fn own_words(state: &[u32], domain: usize) -> &[u32] {
    let from = length(domain).min(state.len());
    &state[from..(from + DOMAIN_WORDS).min(state.len())]
}

/// The words that are pending of a domain in a state.
pub fn pending_words(state: &[u32], domain: usize) -> &[u32] {
    let Some((&count, words)) = own_words(state, domain).split_first() else {
        return &[];
    };
    &words[..(count as usize).min(PENDING_WORDS).min(words.len())]
}

/// The calls that are pending of a domain, oldest first.
pub fn pending_calls(state: &[u32], domain: usize) -> Vec<Call> {
    cut(pending_words(state, domain))
}

/// The word after the pending ones, which nobody may look at.
pub fn word_behind(state: &[u32], domain: usize) -> Option<u32> {
    let pending = pending_words(state, domain).len();
    own_words(state, domain).get(1 + pending).copied()
}

/// The domain that a turn served and its call, by the state before and after it.
pub fn served(lent: &Lent, left: &Left) -> Option<(usize, Call)> {
    if left.code != 0 || left.served != 1 {
        return None;
    }
    let domain = (*left.words.state.first()? as usize).checked_sub(1)?;
    let call = *pending_calls(&lent.state, domain).first()?;
    Some((domain, call))
}

/// How many turns pending calls have waited, and how many any has waited at the most: the
/// oldest of each domain since it is the oldest, and each call since it was handed in. A
/// turn that is refused doesn't count.
#[derive(Debug, Clone, PartialEq, Eq)]
pub struct Waits {
    now: Vec<usize>,
    pub longest: Vec<usize>,
    /// Of each domain's pending calls, oldest first.
    calls: Vec<VecDeque<Wait>>,
    pub longest_of_all: Vec<usize>,
}

/// How many turns a call has waited since it was handed in, and within how many it is to be
/// served: n for each call of its domain that was pending then, itself among them.
#[derive(Debug, Clone, PartialEq, Eq)]
struct Wait {
    turns: usize,
    within: usize,
}

impl Waits {
    /// For so many domains with nothing pending.
    pub fn new(n: usize) -> Waits {
        Waits {
            now: vec![0; n],
            longest: vec![0; n],
            calls: vec![VecDeque::new(); n],
            longest_of_all: vec![0; n],
        }
    }

    /// Counts a turn that isn't refused; an error where the oldest call of a domain isn't
    /// served within as many turns as there are domains, or another within as many for each
    /// call up to it.
    pub fn turned(&mut self, lent: &Lent, left: &Left) -> Result<(), String> {
        let n = domains(&lent.table);
        let served = served(lent, left).map(|(domain, _)| domain);
        for domain in 0..n {
            let Some(call) = pending_calls(&lent.state, domain).first().copied() else {
                self.now[domain] = 0;
                continue;
            };
            self.now[domain] += 1;
            self.longest[domain] = self.longest[domain].max(self.now[domain]);
            if served == Some(domain) {
                self.now[domain] = 0;
            } else if self.now[domain] >= n {
                let call = call_in_words(&call, &Names::none());
                return Err(format!("not served within {n} turns: {call}"));
            }
        }
        (0..n).try_for_each(|domain| self.turned_for(lent, domain, served == Some(domain)))
    }

    /// Counts a turn for every pending call of a domain, and takes out the one served.
    fn turned_for(&mut self, lent: &Lent, domain: usize, served: bool) -> Result<(), String> {
        let n = domains(&lent.table);
        let pending = pending_calls(&lent.state, domain);
        let waits = &mut self.calls[domain];
        waits.truncate(pending.len());
        for place in waits.len()..pending.len() {
            let within = (1 + place) * n;
            waits.push_back(Wait { turns: 0, within });
        }
        for wait in waits.iter_mut() {
            wait.turns += 1;
            self.longest_of_all[domain] = self.longest_of_all[domain].max(wait.turns);
        }
        if served {
            waits.pop_front();
        }
        match waits.iter().find(|wait| wait.turns >= wait.within) {
            None => Ok(()),
            Some(late) => Err(format!(
                "a pending call of domain {domain} is not served within {} turns",
                late.within
            )),
        }
    }

    /// How many turns the call has waited since it was handed in that the next turn serves,
    /// that turn among them.
    pub fn of_served(&self, domain: usize) -> usize {
        1 + self.calls[domain].front().map_or(0, |wait| wait.turns)
    }
}

/// The calls that turns served from a table on, with what came of them.
pub struct Served {
    start: Vec<u32>,
    table: Vec<u32>,
    list: Vec<u32>,
    answers: Vec<u32>,
    holders: Vec<u32>,
}

impl Served {
    pub fn begin(table: &[u32]) -> Served {
        Served {
            start: table.to_vec(),
            table: table.to_vec(),
            list: Vec::new(),
            answers: Vec::new(),
            holders: Vec::new(),
        }
    }

    pub fn calls(&self) -> usize {
        self.answers.len() / ANSWER_WORDS
    }

    /// Whether they have more words than a list can have.
    pub fn pass_a_list(&self) -> bool {
        self.list.len() > LIST_WORDS_MAX
    }

    /// Takes note of a turn.
    pub fn note(&mut self, lent: &Lent, left: &Left) {
        if let Some((_, call)) = served(lent, left) {
            self.list.extend(call.words());
            self.answers.extend(&left.words.answer[..ANSWER_WORDS]);
            self.table.clone_from(&left.words.table);
            self.holders.clone_from(&left.words.holders);
        }
    }

    /// That as one list they get the same answers and leave the same table by the
    /// reference, and by the proved run, which leaves the same holders too, where a list can
    /// have so many words.
    pub fn as_one_list(&self) -> Result<(), String> {
        let mut table = self.start.clone();
        let calls = cut(&self.list);
        let answers = calls.iter().flat_map(|call| step(&mut table, call));
        let answers: Vec<u32> = answers.collect();
        if answers != self.answers || table != self.table {
            return Err(self.differs("the reference"));
        }
        if calls.is_empty() || self.pass_a_list() {
            return Ok(());
        }
        let case = Case {
            table: self.start.clone(),
            list: self.list.clone(),
            answers: vec![0; self.answers.len()],
            holders: vec![0; domains(&self.start)],
        };
        let ran = run_here(&PROVED, &case)?;
        let calls = calls.len() as u32;
        let same = ran.outcome == Outcome { code: 0, calls }
            && ran.answers == self.answers
            && ran.table == self.table
            && ran.holders == self.holders;
        same.then_some(()).ok_or_else(|| self.differs("the run"))
    }

    fn differs(&self, by: &str) -> String {
        format!(
            "the calls served, as one list, are answered otherwise by {by}\n\
             The table at the beginning:\n{}\nThe calls:\n{}",
            hex(&self.start),
            hex(&self.list)
        )
    }
}

#[cfg(test)]
mod tests {
    use super::*;
    use reference::generate::call_word;

    fn lent(pending: &[u32]) -> Lent {
        let mut state = vec![0];
        for (domain, &count) in pending.iter().enumerate() {
            state.push(count);
            state.extend([call_word(5, domain, 0, 0, 0); PENDING_WORDS]);
        }
        let n = pending.len() as u32;
        let mut table = vec![0x1000_0000 | n << 8];
        table.extend(vec![0x2000_0000; pending.len() * pending.len()]);
        Lent {
            table,
            state,
            holders: vec![0; pending.len()],
            answer: vec![0; 3],
        }
    }

    /// A turn that serves a domain, as far as waits look at it.
    fn left_by_serving(lent: &Lent, domain: u32) -> Left {
        let mut words = lent.clone();
        words.state[0] = domain + 1;
        Left {
            code: 0,
            served: 1,
            words,
        }
    }

    #[test]
    fn calls_that_are_answered_otherwise_as_one_list_are_reported() {
        let mut served = Served::begin(&[0x1000_0100, 0x2000_0000]);
        served.list.push(0x5000_0000);
        served.answers.extend([0x5000_0000, 0, 0]);
        served.holders.push(0);
        assert_eq!((served.calls(), served.as_one_list()), (1, Ok(())));
        served.holders[0] = 1;
        let said = served.as_one_list().unwrap_err();
        assert!(said.contains("otherwise by the run"), "{said}");
        served.answers[1] = 1;
        let said = served.as_one_list().unwrap_err();
        assert!(said.contains("otherwise by the reference"), "{said}");
    }

    #[test]
    fn waits_are_counted_from_where_a_call_is_the_oldest() {
        let mut waits = Waits::new(3);
        let mut turned = |pending: &[u32], domain| {
            let lent = lent(pending);
            let left = left_by_serving(&lent, domain);
            (waits.turned(&lent, &left), waits.longest.clone())
        };
        assert_eq!(turned(&[1, 2, 0], 0), (Ok(()), vec![1, 1, 0]));
        assert_eq!(turned(&[1, 2, 1], 1), (Ok(()), vec![1, 2, 1]));
        assert_eq!(turned(&[1, 1, 1], 2), (Ok(()), vec![2, 2, 2]));
        let late = "not served within 3 turns: domain 0 asks for its rights".to_string();
        assert_eq!(turned(&[2, 1, 0], 1), (Err(late), vec![3, 2, 2]));
    }

    /// The second of two calls may wait six turns with three domains, and not seven.
    #[test]
    fn waits_are_counted_from_where_a_call_is_handed_in() {
        let mut waits = Waits::new(3);
        let mut turned = |pending: &[u32], domain| {
            let lent = lent(pending);
            let left = left_by_serving(&lent, domain);
            (waits.turned(&lent, &left), waits.longest_of_all[0])
        };
        for (pending, domain, longest) in [
            (&[2, 1, 1], 1, 1),
            (&[2, 1, 1], 2, 2),
            (&[2, 1, 1], 0, 3),
            (&[1, 1, 1], 1, 4),
            (&[1, 1, 1], 2, 5),
        ] {
            assert_eq!(turned(pending, domain), (Ok(()), longest));
        }
        assert_eq!(waits.of_served(0), 6);
        let late = waits.turned_for(&lent(&[1, 1, 1]), 0, false).unwrap_err();
        assert!(late.ends_with("of domain 0 is not served within 6 turns"));
        assert_eq!(waits.longest_of_all[0], 6);
    }

    #[test]
    fn what_is_pending_is_read_of_any_words() {
        assert_eq!(pending_words(&[], 3), &[] as &[u32]);
        assert_eq!(pending_words(&[0, 5, 1, 2], 0), &[1, 2]);
        let full = lent(&[17, 1]);
        assert_eq!(pending_words(&full.state, 0).len(), 16);
        assert_eq!(word_behind(&full.state, 0), None);
        assert_eq!(word_behind(&full.state, 1), Some(0x5040_0000));
    }
}
