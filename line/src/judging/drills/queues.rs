//! Queues in every state: each waiting count of each capacity, each lost count around a
//! power of two, messages of one bit, of none, of all and of one byte again and again, the
//! same message twice and one that waits already; at each endpoint, by each owner and each
//! sender.

use reference::table::{right, DOMAINS_MAX, ENDPOINTS_MAX, SLOTS};
use reference::words::CONTENT_MAX;

use super::bits::calls_of;
use super::tables::{patterns, spread, Shape};
use super::{Tables, Take};
use crate::judging::exercise::planner::{look_up, my_endpoints, receive, send};

/// The drill.
pub fn queues(_: &Tables, take: &mut Take) {
    for capacity in 1..=SLOTS {
        for waits in 0..=capacity {
            state(capacity, waits, take);
            sent_again(capacity, waits, take);
        }
        lost_counts(capacity, take);
    }
    messages(take);
    for e in 0..ENDPOINTS_MAX {
        endpoint(e, take);
        (0..DOMAINS_MAX).for_each(|sender| only_sender(e, sender, take));
        (0..=SLOTS).for_each(|waits| waiting_at(e, waits, take));
        lost_at(e, take);
    }
}

/// One queue of domain 1, to which domain 0 and its owner may send.
fn one_queue(capacity: usize, waits: usize) -> Shape {
    let mut shape = Shape::new(2, 2).with_rights(|_, target| target as u32 & right::SEND);
    let queue = &mut shape.queues[1];
    (queue.owner, queue.capacity) = (1, capacity);
    queue.messages = (0..waits).map(spread).collect();
    shape
}

/// A queue in one state, whose owner may send to itself or has no right at all: a send, a
/// receive, and up to twice as many of each as it holds, in both orders.
fn state(capacity: usize, waits: usize, take: &mut Take) {
    let shape = one_queue(capacity, waits);
    both_orders(&shape.words(), capacity, take);
    both_orders(&shape.give(1, 1, 0).words(), capacity, take);
}

fn both_orders(table: &[u32], capacity: usize, take: &mut Take) {
    for sends in 0..=2 * capacity {
        for receives in [0, 1, 2, capacity, 2 * capacity] {
            let put = (0..sends).map(|number| send(number % 2, 1, spread(50 + number)));
            let taken = (0..receives).map(|_| receive(1, 1));
            calls_of(table, put.clone().chain(taken.clone()), take);
            calls_of(table, taken.chain(put), take);
        }
    }
}

/// Each message that waits already sent once more.
fn sent_again(capacity: usize, waits: usize, take: &mut Take) {
    let table = one_queue(capacity, waits).words();
    for message in (0..waits).map(spread) {
        calls_of(&table, [send(0, 1, message), receive(1, 1)], take);
    }
}

/// A full queue with each lost count below, at and above a power of two and of each pattern:
/// one loss, three, and a receive that shows the count.
fn lost_counts(capacity: usize, take: &mut Take) {
    let powers =
        (0..=28).flat_map(|bit| [(1 << bit) - 2, (1 << bit) - 1, 1 << bit, (1 << bit) + 1]);
    let powers = powers.filter(|lost| (0..=i64::from(CONTENT_MAX)).contains(lost));
    for lost in powers.map(|lost| lost as u32).chain(patterns()) {
        let mut shape = one_queue(capacity, capacity);
        shape.queues[1].lost = lost;
        for losses in [0, 1, 3] {
            let sends = (0..losses).map(|number| send(0, 1, spread(number)));
            let calls = sends.chain([receive(1, 1), receive(1, 1)]);
            calls_of(&shape.words(), calls, take);
        }
    }
}

/// Messages of no bit, of each bit alone, of all but one, of all and of patterns, sent, pushed
/// out and received; each of them twice in a row, to an endpoint of that name.
fn messages(take: &mut Take) {
    let alone = (0..28).map(|bit| 1 << bit);
    let but_one = (0..28).map(|bit| CONTENT_MAX ^ 1 << bit);
    let all = alone.chain(but_one).chain([0, CONTENT_MAX]);
    for message in all.chain(patterns()) {
        for capacity in [1, 2, 8] {
            let mut shape = one_queue(capacity, 0);
            shape.queues[1].name = message.max(1);
            let sends = [message, message, message ^ 1, message];
            let sends = sends.map(|message| send(0, 1, message)).into_iter();
            calls_of(&shape.words(), sends.chain([receive(1, 1); 4]), take);
            let mut waits = one_queue(capacity, 0);
            waits.queues[1].messages = vec![message; capacity];
            calls_of(&waits.words(), [send(1, 1, message), receive(1, 1)], take);
        }
    }
}

/// A full queue at an endpoint with each lost count around a power of two: one loss, and a
/// receive that shows the count.
fn lost_at(e: usize, take: &mut Take) {
    for lost in (0..=28).flat_map(|bit| [(1 << bit) - 1, 1 << bit]) {
        let mut shape = Shape::new(1, ENDPOINTS_MAX).give(0, 0, right::SEND);
        let queue = &mut shape.queues[e];
        (queue.capacity, queue.messages, queue.lost) = (1, vec![7], CONTENT_MAX.min(lost));
        calls_of(&shape.words(), [send(0, e, 8), receive(0, e)], take);
    }
}

/// An endpoint with so many waiting: one is received, one sent and one received.
fn waiting_at(e: usize, waits: usize, take: &mut Take) {
    let mut shape = Shape::new(1, ENDPOINTS_MAX).give(0, 0, right::SEND);
    shape.queues[e].messages = (0..waits).map(spread).collect();
    let calls = [receive(0, e), send(0, e, spread(waits)), receive(0, e)];
    calls_of(&shape.words(), calls, take);
}

/// An endpoint to which all domains send, and one of them alone may.
fn only_sender(e: usize, sender: usize, take: &mut Take) {
    let owner = (sender + e) % DOMAINS_MAX;
    let mut shape = Shape::new(DOMAINS_MAX, ENDPOINTS_MAX)
        .with_rights(|_, _| right::ALL & !right::SEND)
        .give(sender, owner, right::SEND);
    shape.queues[e].owner = owner;
    let sends = (0..DOMAINS_MAX).map(|caller| send(caller, e, spread(caller)));
    calls_of(&shape.words(), sends, take);
}

/// An endpoint among as many as there can be, owned by each domain in turn, which has no
/// other: looked up, filled by its owner and by one that owns none, read by it and by another,
/// and asked for.
fn endpoint(e: usize, take: &mut Take) {
    for owner in 0..16 {
        let (other, third) = ((owner + 1) % 16, (owner + 2) % 16);
        let mut shape = Shape::new(16, ENDPOINTS_MAX)
            .give(owner, owner, right::SEND)
            .give(third, owner, right::SEND);
        for (place, queue) in shape.queues.iter_mut().enumerate() {
            queue.owner = if place == e { owner } else { other };
            queue.messages = vec![spread(place)];
        }
        let calls = [
            my_endpoints(owner),
            my_endpoints(other),
            look_up(owner, spread(e)),
            look_up(third, spread(e)),
            send(owner, e, spread(owner)),
            send(other, e, spread(owner)),
            send(third, e, spread(third)),
            receive(other, e),
            receive(owner, e),
            receive(owner, e),
            receive(owner, e),
        ];
        calls_of(&shape.words(), calls, take);
    }
}
