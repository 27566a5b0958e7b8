//! What a judgement is based on: of the lists that it goes through, how many calls of each
//! kind are done and how many are refused by each number, and what is shown of each
//! endpoint and of the rights on each domain. All by the reference.

use std::ops::RangeInclusive;

use reference::calls::{
    cut, Call, GRANT, LOOK_UP, MY_ENDPOINTS, MY_RIGHTS, RECEIVE, REMOVE, REVOKE, SEND,
};
use reference::step;
use reference::table::{domains, endpoints};
use reference::words::bits;

use crate::cases::Case;
use crate::judging::counts::{follow, Queue};

/// The numbers that a call can be refused by.
pub const CALL_CODES: RangeInclusive<u32> = 10..=23;

/// The number by which a sender is refused that may not send to the endpoint.
const MAY_NOT_SEND: u32 = 17;

/// The kinds of calls, each with what one and what several of them are called.
const KINDS: [(u32, &str, &str); 8] = [
    (LOOK_UP, "look up", "look ups"),
    (SEND, "send", "sends"),
    (RECEIVE, "receive", "receives"),
    (MY_ENDPOINTS, "my endpoints", "my endpoints"),
    (MY_RIGHTS, "my rights", "my rights"),
    (GRANT, "grant", "grants"),
    (REMOVE, "remove", "removes"),
    (REVOKE, "revoke", "revokes"),
];

#[derive(Default)]
pub struct Basis {
    pub calls: u64,
    /// By kind, the calls that are done; by number, those that are refused.
    done: [u64; 16],
    refused: [u64; 24],
    pub at: Vec<AtEndpoint>,
    pub on: Vec<OnTarget>,
    /// Grants to another domain than the caller.
    pub to_another: u64,
}

/// What is shown of one endpoint.
#[derive(Clone, Default)]
pub struct AtEndpoint {
    pub queue: Queue,
    /// Sends by those who may not.
    pub outsiders: u64,
}

/// What is shown of the rights on one domain.
#[derive(Clone, Default)]
pub struct OnTarget {
    /// Grants that give something, and those that give what is there already.
    pub given: u64,
    pub given_again: u64,
    /// Removes that are done.
    pub given_up: u64,
    /// Revokes that take something, and those that find nothing to take.
    pub taken_back: u64,
    pub nothing_to_take: u64,
}

impl Basis {
    /// What lists on tables of the same size stand for.
    pub fn of<'a>(cases: impl IntoIterator<Item = &'a Case>) -> Basis {
        let mut basis = Basis::default();
        for case in cases {
            basis.add(case);
        }
        basis
    }

    fn add(&mut self, case: &Case) {
        self.at
            .resize_with(endpoints(&case.table), Default::default);
        self.on.resize_with(domains(&case.table), Default::default);
        let calls = cut(&case.list);
        let mut table = case.table.clone();
        let mut answers = Vec::new();
        for call in &calls {
            let before = table.clone();
            let answer = step(&mut table, call);
            self.take(call, bits(answer[0], 15, 0), table != before);
            answers.extend(answer);
        }
        let counts = follow(&case.table, &calls, &answers);
        for (at, queue) in self.at.iter_mut().zip(&counts.queues) {
            at.queue.add(queue);
        }
    }

    /// A call, the number that it is answered with, and whether it altered the table.
    fn take(&mut self, call: &Call, code: u32, altered: bool) {
        self.calls += 1;
        let (endpoint, target) = (call.b() as usize, call.a() as usize);
        if code != 0 {
            self.refused[code as usize] += 1;
            if code == MAY_NOT_SEND {
                self.at[endpoint].outsiders += 1;
            }
            return;
        }
        self.done[call.kind() as usize] += 1;
        let to_another = call.kind() == GRANT && call.caller() != Some(call.b());
        self.to_another += u64::from(to_another);
        match call.kind() {
            GRANT if altered => self.on[target].given += 1,
            GRANT => self.on[target].given_again += 1,
            REMOVE => self.on[target].given_up += 1,
            REVOKE if altered => self.on[target].taken_back += 1,
            REVOKE => self.on[target].nothing_to_take += 1,
            _ => {}
        }
    }

    pub fn refused_by(&self, code: u32) -> u64 {
        self.refused[code as usize]
    }

    /// How many calls of each kind are done.
    pub fn done_in_words(&self) -> String {
        let met = KINDS.iter().filter(|(kind, ..)| self.done(*kind) != 0);
        let each = met.map(|(kind, one, many)| {
            let (times, more) = (self.done(*kind), self.more_in_words(*kind));
            match times {
                1 => format!("1 {one}{more}"),
                _ => format!("{times} {many}{more}"),
            }
        });
        or_none(each.collect())
    }

    /// What is to be said of the calls of a kind besides how many there are.
    fn more_in_words(&self, kind: u32) -> String {
        let at = |of: fn(&AtEndpoint) -> u64| self.at.iter().map(of).sum::<u64>();
        let on = |of: fn(&OnTarget) -> u64| self.on.iter().map(of).sum::<u64>();
        match kind {
            SEND => format!(" ({} to a full queue)", at(|at| at.queue.full)),
            GRANT => format!(" ({} giving something)", on(|on| on.given)),
            REVOKE => format!(" ({} taking something)", on(|on| on.taken_back)),
            _ => String::new(),
        }
    }

    fn done(&self, kind: u32) -> u64 {
        self.done[kind as usize]
    }

    /// The kinds of which no call is done.
    pub fn never_done(&self) -> Vec<&'static str> {
        let never = KINDS.iter().filter(|(kind, ..)| self.done(*kind) == 0);
        never.map(|(_, one, _)| *one).collect()
    }

    /// How many calls are refused by each number.
    pub fn refused_in_words(&self) -> String {
        by_number(CALL_CODES.map(|code| (code, self.refused_by(code))))
    }

    pub fn refused(&self) -> u64 {
        self.refused.iter().sum()
    }
}

/// Numbers with how often each came, those that never came left out.
pub fn by_number(numbers: impl Iterator<Item = (u32, u64)>) -> String {
    let met = numbers.filter(|&(_, times)| times != 0);
    or_none(
        met.map(|(code, times)| format!("{code}: {times}"))
            .collect(),
    )
}

fn or_none(each: Vec<String>) -> String {
    match each.is_empty() {
        true => "none".to_string(),
        false => each.join(", "),
    }
}
