//! Influence, sources, purge and view (document 01, "Influence" and "The
//! striking rule").
//!
//! Document 01 names the striking rule and tells its parts in words. Here they
//! have the names of the field: `sources` is its set at a call, `purge` says
//! which calls are kept and which are struck, `view` is what must be equal for a
//! domain. That it is equal is noninterference.

use std::collections::BTreeSet;

use crate::calls::Call;
use crate::entry::ANSWER_WORDS;
use crate::machine::step;
use crate::table::{
    domains, endpoint_words, endpoints, owner, rights, rights_place, LOST_PLACE, SLOTS,
    SLOTS_PLACE, WAITING_PLACE,
};

/// Whether u influences v in a table: u is v, or has any right on v.
pub fn influences(table: &[u32], u: usize, v: usize) -> bool {
    u == v || rights(table, u, v) != 0
}

/// The sources of domain d (document 01: the set): at place i the set at call i,
/// and at the last place the set past the last call, which is d alone.
pub fn sources(table: &[u32], calls: &[Call], d: usize) -> Vec<BTreeSet<usize>> {
    let before = tables_before(table, calls);
    let mut sets = vec![BTreeSet::from([d]); calls.len() + 1];
    for i in (0..calls.len()).rev() {
        sets[i] = set_at(&before[i], &calls[i], &sets[i + 1]);
    }
    sets
}

/// The table just before each call, the machine being fed all of them, and at
/// the last place the table past the last call.
pub fn tables_before(table: &[u32], calls: &[Call]) -> Vec<Vec<u32>> {
    let mut tables = vec![table.to_vec()];
    let mut now = table.to_vec();
    for call in calls {
        step(&mut now, call);
        tables.push(now.clone());
    }
    tables
}

/// The set at a call: the set at the next one, joined by the call's caller where
/// that has any right on a member in the table just before the call. A refused
/// call counts like any other.
fn set_at(before: &[u32], call: &Call, next: &BTreeSet<usize>) -> BTreeSet<usize> {
    let mut set = next.clone();
    if let Some(caller) = known_caller(before, call) {
        if next.iter().any(|&v| rights(before, caller, v) != 0) {
            set.insert(caller);
        }
    }
    set
}

/// The call's caller where that is below n. A stray has none.
fn known_caller(table: &[u32], call: &Call) -> Option<usize> {
    let caller = call.caller()? as usize;
    if caller < domains(table) {
        Some(caller)
    } else {
        None
    }
}

/// The purge for domain d (document 01: the striking rule): whether each call is
/// kept. Kept are the calls whose caller is in the set at that call; the others
/// are struck.
pub fn purge(table: &[u32], calls: &[Call], d: usize) -> Vec<bool> {
    let sets = sources(table, calls, d);
    calls
        .iter()
        .enumerate()
        .map(|(i, call)| known_caller(table, call).is_some_and(|caller| sets[i].contains(&caller)))
        .collect()
}

/// What a domain sees of a run: what must be equal under noninterference.
#[derive(Debug, Clone, PartialEq, Eq)]
pub struct View {
    /// All three words of each call whose caller is the domain, in order.
    pub answers: Vec<[u32; 3]>,
    /// The n rights words that the domain holds.
    pub rights: Vec<u32>,
    /// The queue words of each endpoint that the domain owns.
    pub queues: Vec<QueueView>,
}

/// The words of an endpoint that its owner sees.
#[derive(Debug, Clone, PartialEq, Eq)]
pub struct QueueView {
    pub endpoint: usize,
    pub waiting: u32,
    pub messages: [u32; SLOTS],
    pub lost: u32,
}

/// The view of domain d: `table` as the run left it, `answers` three words for
/// each of `calls`.
pub fn view(table: &[u32], calls: &[Call], answers: &[u32], d: usize) -> View {
    View {
        answers: own_answers(calls, answers, d),
        rights: rights_words(table, d).to_vec(),
        queues: (0..endpoints(table))
            .filter(|&endpoint| owner(table, endpoint) == d)
            .map(|endpoint| queue_view(table, endpoint))
            .collect(),
    }
}

fn own_answers(calls: &[Call], answers: &[u32], d: usize) -> Vec<[u32; 3]> {
    calls
        .iter()
        .zip(answers.chunks_exact(ANSWER_WORDS))
        .filter(|(call, _)| call.caller() == Some(d as u32))
        .map(|(_, words)| [words[0], words[1], words[2]])
        .collect()
}

fn rights_words(table: &[u32], holder: usize) -> &[u32] {
    let place = rights_place(table, holder, 0);
    &table[place..place + domains(table)]
}

fn queue_view(table: &[u32], endpoint: usize) -> QueueView {
    let words = endpoint_words(table, endpoint);
    let mut messages = [0; SLOTS];
    messages.copy_from_slice(&words[SLOTS_PLACE..]);
    QueueView {
        endpoint,
        waiting: words[WAITING_PLACE],
        messages,
        lost: words[LOST_PLACE],
    }
}
