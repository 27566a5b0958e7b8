//! The queues' accounts over random tables and lists. For each endpoint, sends
//! answered 0 plus waiting at the start equals messages received plus sends that
//! found the queue full plus waiting at the end; each of those pushed the oldest
//! message out. The lost count rises by the full sends and stays at its top.
//! Messages come out oldest first.

use std::collections::VecDeque;

use crate::support::{code_of, run_from, shown, Run};
use reference::generate::{list, table, Rng};
use reference::table::{capacity, endpoint_words, endpoints, lost, waiting};
use reference::words::{content, CONTENT_MAX};
use reference::{cut, Call};

/// An endpoint followed by its answers alone.
struct Account {
    capacity: usize,
    queue: VecDeque<u32>,
    lost_at_start: u64,
    waiting_at_start: usize,
    sent: usize,
    received: usize,
    full: usize,
}

impl Account {
    fn open(table: &[u32], endpoint: usize) -> Account {
        let count = waiting(table, endpoint);
        let slots = &endpoint_words(table, endpoint)[4..4 + count];
        Account {
            capacity: capacity(table, endpoint),
            queue: slots.iter().map(|&word| content(word)).collect(),
            lost_at_start: u64::from(lost(table, endpoint)),
            waiting_at_start: count,
            sent: 0,
            received: 0,
            full: 0,
        }
    }

    /// The lost count as the table must show it.
    fn lost(&self) -> u32 {
        (self.lost_at_start + self.full as u64).min(u64::from(CONTENT_MAX)) as u32
    }

    fn send(&mut self, message: u32) {
        self.sent += 1;
        if self.queue.len() == self.capacity {
            self.queue.pop_front();
            self.full += 1;
        }
        self.queue.push_back(message);
    }

    /// The data words that the receive must answer.
    fn receive(&mut self) -> Option<[u32; 2]> {
        self.received += 1;
        Some([self.queue.pop_front()?, self.lost()])
    }

    /// The waiting, lost and message words that the run must leave.
    fn words(&self) -> Vec<u32> {
        let mut words = vec![0x5000_0000 | self.queue.len() as u32];
        words.push(0x6000_0000 | self.lost());
        words.extend(self.queue.iter().map(|message| 0xF000_0000 | message));
        words.resize(10, 0xF000_0000);
        words
    }
}

/// Enters each answered send and receive of a run; says what is wrong, if
/// anything is.
fn enter(accounts: &mut [Account], calls: &[Call], ran: &Run) -> Result<(), String> {
    for (i, (call, answer)) in calls.iter().zip(ran.answers.chunks_exact(3)).enumerate() {
        if code_of(answer) != 0 {
            continue;
        }
        let endpoint = call.b() as usize;
        if call.kind() == 2 {
            accounts[endpoint].send(call.second_content().unwrap());
        }
        if call.kind() == 3 && accounts[endpoint].receive() != Some([answer[1], answer[2]]) {
            return Err(format!("call {i} received {answer:X?}"));
        }
    }
    Ok(())
}

/// Says what is wrong with the accounts once they are closed, if anything is.
fn close(accounts: &[Account], left: &[u32]) -> Result<(), String> {
    for (endpoint, account) in accounts.iter().enumerate() {
        if endpoint_words(left, endpoint)[2..] != account.words() {
            return Err(format!("endpoint {endpoint} holds other words"));
        }
        let came = account.sent + account.waiting_at_start;
        if came != account.received + account.full + waiting(left, endpoint) {
            return Err(format!("endpoint {endpoint} doesn't balance"));
        }
    }
    Ok(())
}

#[test]
fn accounts_balance() {
    let (mut full, mut received, mut topped) = (0, 0, 0);
    for seed in 0..1500 {
        let rng = &mut Rng::new(seed);
        let table = table(rng, 6, 8);
        let list = list(rng, &table, 60);
        let ran = run_from(&table, &list);
        let mut accounts: Vec<Account> = (0..endpoints(&table))
            .map(|endpoint| Account::open(&table, endpoint))
            .collect();
        let wrong = enter(&mut accounts, &cut(&list), &ran).and(close(&accounts, &ran.table));
        if let Err(what) = wrong {
            panic!("{what}, {}", shown(seed, &table, &list));
        }
        for account in &accounts {
            full += account.full;
            received += account.received;
            let beyond = account.lost_at_start + account.full as u64;
            topped += usize::from(account.full > 0 && beyond > u64::from(CONTENT_MAX));
        }
    }
    assert!(full > 1_000 && received > 1_000 && topped > 100);
}
