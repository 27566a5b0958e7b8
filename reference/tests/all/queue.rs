//! A receive and a send on any twelve words (document 02, requests (d) and (a)):
//! just what their rows name changes, whatever the other words hold.

use reference::generate::{any_endpoint, Rng};
use reference::queue::{receive, send, Endpoint};
use reference::words::hex;

/// Waiting counts on both sides of 1 and of 8, and far from them.
const COUNTS: [u32; 13] = [0, 1, 2, 3, 4, 5, 6, 7, 8, 9, 255, 256, 0x0FFF_FFFF];

/// Twelve words with a waiting count and a capacity. Each slot holds something
/// else, and none of them is empty.
fn twelve(count: u32, capacity: u32) -> Endpoint {
    let mut words = [0; 12];
    words[0] = 0x3000_0007;
    words[1] = 0x4000_0500 | capacity;
    words[2] = 0x5000_0000 | count;
    words[3] = 0x6000_0009;
    for slot in 0..8 {
        words[4 + slot] = 0x1111_1111 * (slot as u32 + 3);
    }
    words
}

/// The words that a receive must leave, and what it must give.
fn received(before: &Endpoint) -> (Endpoint, Option<[u32; 2]>) {
    let mut after = *before;
    let count = before[2] & 0x0FFF_FFFF;
    if count == 0 || count > 8 {
        return (after, None);
    }
    let last = 4 + count as usize;
    after[4..last].rotate_left(1);
    after[last - 1] = 0xF000_0000;
    after[2] = 0x5000_0000 | (count - 1);
    let data = [before[4] & 0x0FFF_FFFF, before[3] & 0x0FFF_FFFF];
    (after, Some(data))
}

/// The words that a send must leave.
fn sent(before: &Endpoint, message: u32) -> Endpoint {
    let mut after = *before;
    let (count, capacity) = (before[2] & 0x0FFF_FFFF, before[1] & 0xFF);
    let lost = before[3] & 0x0FFF_FFFF;
    if count < capacity && count < 8 {
        after[4 + count as usize] = 0xF000_0000 | message;
        after[2] = 0x5000_0000 | (count + 1);
    }
    if count >= capacity && (1..=8).contains(&count) {
        let last = 4 + count as usize;
        after[4..last].rotate_left(1);
        after[last - 1] = 0xF000_0000 | message;
        after[2] = 0x5000_0000 | count;
        after[3] = 0x6000_0000 | 0x0FFF_FFFF.min(lost + 1);
    }
    after
}

fn check_receive(before: &Endpoint) {
    let mut after = *before;
    let data = receive(&mut after);
    assert_eq!((after, data), received(before), "{}", hex(before));
}

fn check_send(before: &Endpoint, message: u32) {
    let mut after = *before;
    send(&mut after, message);
    assert_eq!(after, sent(before, message), "{}", hex(before));
}

#[test]
fn receive_on_any_twelve_words() {
    for count in COUNTS {
        for capacity in [0, 1, 4, 8, 9, 255] {
            check_receive(&twelve(count, capacity));
        }
    }
}

/// One row written out: the slots past the waiting count aren't empty and stay.
#[test]
fn receive_leaves_later_slots_that_are_not_empty() {
    let mut endpoint = twelve(3, 4);
    assert_eq!(receive(&mut endpoint), Some([0x0333_3333, 9]));
    let expected = [
        0x3000_0007,
        0x4000_0504,
        0x5000_0002,
        0x6000_0009,
        0x4444_4444,
        0x5555_5555,
        0xF000_0000,
        0x6666_6666,
        0x7777_7777,
        0x8888_8888,
        0x9999_9999,
        0xAAAA_AAAA,
    ];
    assert_eq!(hex(&endpoint), hex(&expected));
}

/// One row written out: the oldest goes, the newcomer is last, later slots stay.
#[test]
fn send_to_a_full_queue_leaves_later_slots_that_are_not_empty() {
    let mut endpoint = twelve(3, 3);
    send(&mut endpoint, 0x63);
    let expected = [
        0x3000_0007,
        0x4000_0503,
        0x5000_0003,
        0x6000_000A,
        0x4444_4444,
        0x5555_5555,
        0xF000_0063,
        0x6666_6666,
        0x7777_7777,
        0x8888_8888,
        0x9999_9999,
        0xAAAA_AAAA,
    ];
    assert_eq!(hex(&endpoint), hex(&expected));
}

#[test]
fn send_on_any_twelve_words() {
    for count in COUNTS {
        for capacity in [0, 1, 2, 7, 8, 9, 10, 255] {
            check_send(&twelve(count, capacity), 0x0FFF_FFFE);
            check_send(&twelve(count, capacity), 0);
        }
    }
}

/// Words drawn with every kind and field; the floors say that each side is met.
#[test]
fn receive_and_send_on_drawn_words() {
    let (mut served, mut unserved, mut filled, mut pushed_out, mut left) = (0, 0, 0, 0, 0);
    for seed in 0..20_000 {
        let rng = &mut Rng::new(seed);
        let endpoint = any_endpoint(rng);
        check_receive(&endpoint);
        check_send(&endpoint, rng.word() & 0x0FFF_FFFF);
        let (count, capacity) = (endpoint[2] & 0x0FFF_FFFF, endpoint[1] & 0xFF);
        let can_serve = (1..=8).contains(&count);
        served += usize::from(can_serve);
        unserved += usize::from(!can_serve);
        let fills = count < capacity && count < 8;
        let pushes_out = count >= capacity && can_serve;
        filled += usize::from(fills);
        pushed_out += usize::from(pushes_out);
        left += usize::from(!fills && !pushes_out);
    }
    assert!(served > 8_000, "served {served}");
    assert!(unserved > 2_000, "unserved {unserved}");
    assert!(filled > 4_000, "filled {filled}");
    assert!(pushed_out > 4_000, "pushed out {pushed_out}");
    assert!(left > 1_000, "left {left}");
}
