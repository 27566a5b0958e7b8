//! Queues followed through a run by its answers alone, and the counts that must
//! come out: whatever was sent is received, lost or waiting.

use reference::calls::{Call, RECEIVE, SEND};
use reference::entry::ANSWER_WORDS;
use reference::table::{capacity, endpoints, lost, waiting};
use reference::words::{bits, CONTENT_MAX};

/// One endpoint's queue, from the table before the run and what was answered.
#[derive(Debug, Clone, Copy, Default, PartialEq, Eq)]
pub struct Queue {
    capacity: u64,
    /// Waiting and lost now; lost without the top that the table's count has.
    waiting: u64,
    lost: u64,
    pub sent: u64,
    pub received: u64,
    /// Sends that found the queue full.
    pub full: u64,
    /// Such sends with the lost count at its top already.
    pub at_top: u64,
    /// Receives that left the queue empty, and those that left others waiting.
    pub emptied: u64,
    pub in_turn: u64,
}

/// All queues of a table.
#[derive(Debug, Clone, Default, PartialEq, Eq)]
pub struct Counts {
    pub queues: Vec<Queue>,
    /// The first receive that gives another lost count than was counted.
    lost_wrong: Option<String>,
}

/// Follows the queues through a run of calls on an accepted table.
pub fn follow(table: &[u32], calls: &[Call], answers: &[u32]) -> Counts {
    let mut counts = Counts {
        queues: (0..endpoints(table)).map(|e| queue(table, e)).collect(),
        ..Counts::default()
    };
    let answered = calls.iter().zip(answers.chunks_exact(ANSWER_WORDS));
    for (number, (call, answer)) in answered.enumerate() {
        if bits(answer[0], 15, 0) == 0 {
            counts.take(call, number, answer[2]);
        }
    }
    counts
}

fn queue(table: &[u32], endpoint: usize) -> Queue {
    Queue {
        capacity: capacity(table, endpoint) as u64,
        waiting: waiting(table, endpoint) as u64,
        lost: u64::from(lost(table, endpoint)),
        ..Queue::default()
    }
}

impl Counts {
    /// A call that was done, by its number, with its second data word.
    fn take(&mut self, call: &Call, number: usize, lost: u32) {
        let endpoint = call.b() as usize;
        let Some(queue) = self.queues.get_mut(endpoint) else {
            return;
        };
        match call.kind() {
            SEND => queue.send(),
            RECEIVE => {
                queue.receive();
                let counted = queue.lost_count();
                if u64::from(lost) != counted && self.lost_wrong.is_none() {
                    self.lost_wrong = Some(format!(
                        "endpoint {endpoint}: call {number} is answered {lost} lost, it should be {counted}"
                    ));
                }
            }
            _ => {}
        }
    }

    /// How often something happened, over all queues.
    pub fn sum(&self, of: impl Fn(&Queue) -> u64) -> u64 {
        self.queues.iter().map(of).sum()
    }
}

impl Queue {
    fn send(&mut self) {
        self.sent += 1;
        if self.waiting < self.capacity {
            self.waiting += 1;
            return;
        }
        self.full += 1;
        self.at_top += u64::from(self.lost >= u64::from(CONTENT_MAX));
        self.lost += 1;
    }

    fn receive(&mut self) {
        self.received += 1;
        self.waiting = self.waiting.saturating_sub(1);
        self.emptied += u64::from(self.waiting == 0);
        self.in_turn += u64::from(self.waiting != 0);
    }

    /// The lost count as a table has it, which stays at its top.
    fn lost_count(&self) -> u64 {
        self.lost.min(u64::from(CONTENT_MAX))
    }

    /// What was met in another run of the same endpoint, put to what was met here.
    pub fn add(&mut self, other: &Queue) {
        self.sent += other.sent;
        self.received += other.received;
        self.full += other.full;
        self.at_top += other.at_top;
        self.emptied += other.emptied;
        self.in_turn += other.in_turn;
    }
}

/// The first endpoint whose counts the run doesn't bear out: `before` and `after`
/// are the table's words, `calls` and `answers` what was run.
pub fn difference(
    before: &[u32],
    after: &[u32],
    calls: &[Call],
    answers: &[u32],
) -> Option<String> {
    let counts = follow(before, calls, answers);
    let mut all = 0..endpoints(before);
    all.find_map(|e| endpoint_difference(before, after, e, &counts.queues[e]))
        .or(counts.lost_wrong)
}

fn endpoint_difference(before: &[u32], after: &[u32], e: usize, run: &Queue) -> Option<String> {
    let (start, end) = (waiting(before, e) as u64, waiting(after, e) as u64);
    if start + run.sent != run.received + run.full + end {
        return Some(format!(
            "endpoint {e}: waiting before {start}, sent {}, received {}, dropped {}; waiting \
             should be {}, the table says {end}",
            run.sent, run.received, run.full, run.waiting
        ));
    }
    let should = run.lost_count();
    let says = u64::from(lost(after, e));
    (says != should)
        .then(|| format!("endpoint {e}: the lost count should be {should}; the table says {says}"))
}

#[cfg(test)]
mod tests {
    use super::*;
    use reference::cut;
    use reference::example::{LIST_L, TABLE_T};

    fn ran(table: &[u32], list: &[u32]) -> (Vec<u32>, Vec<Call>, Vec<u32>) {
        let calls = cut(list);
        let mut answers = vec![0; 3 * calls.len()];
        let mut after = table.to_vec();
        assert_eq!(reference::run(&mut after, list, &mut answers).0, 0);
        (after, calls, answers)
    }

    #[test]
    fn the_worked_example_fills_and_empties_a_queue() {
        let (after, calls, answers) = ran(&TABLE_T, &LIST_L);
        assert_eq!(difference(&TABLE_T, &after, &calls, &answers), None);
        let counts = follow(&TABLE_T, &calls, &answers);
        let met = [counts.sum(|q| q.full), counts.sum(|q| q.at_top)];
        assert_eq!(met, [1, 0]);
        let received = [counts.sum(|q| q.emptied), counts.sum(|q| q.in_turn)];
        assert_eq!(received, [1, 0]);
    }

    #[test]
    fn the_lost_count_stays_at_its_top() {
        let mut table = TABLE_T;
        table[9] = 0x2000_0001; // domain 2 may send to itself
        table[25] = 0x6FFF_FFFE;
        let list = [[0x2080_0100, 0xF000_0001]; 4].concat();
        let (after, calls, answers) = ran(&table, &list);
        assert_eq!(after[25], 0x6FFF_FFFF);
        assert_eq!(difference(&table, &after, &calls, &answers), None);
        assert_eq!(follow(&table, &calls, &answers).sum(|q| q.at_top), 2);
    }

    #[test]
    fn invented_counts_are_found() {
        let (mut after, calls, answers) = ran(&TABLE_T, &LIST_L);
        after[25] = 0x6000_0002;
        let said = difference(&TABLE_T, &after, &calls, &answers).unwrap();
        assert_eq!(
            said,
            "endpoint 1: the lost count should be 1; the table says 2"
        );
        after[24] = 0x5000_0001;
        let said = difference(&TABLE_T, &after, &calls, &answers).unwrap();
        let should = "endpoint 1: waiting before 0, sent 2, received 1, dropped 1; waiting should";
        assert!(said.starts_with(should), "{said}");
    }

    #[test]
    fn a_receive_that_gives_another_lost_count_is_found() {
        let (after, calls, mut answers) = ran(&TABLE_T, &LIST_L);
        answers[3 * 4 + 2] = 2;
        let said = difference(&TABLE_T, &after, &calls, &answers).unwrap();
        let should = "endpoint 1: call 4 is answered 2 lost, it should be 1";
        assert_eq!(said, should);
    }
}
