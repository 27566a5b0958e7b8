//! A receive and a send on the twelve words of one endpoint (document 01, "The
//! calls" and "The striking rule"; document 02, requests (d) and (a)).
//!
//! They are told for any twelve words, not only for those of an accepted table:
//! what a row doesn't name stays, whatever it holds. What becomes of words that
//! can't be served, having no message or no slot for one, the papers leave free;
//! here they are left as they are. On an accepted table the machine asks for none
//! of this.

use crate::table::{
    ENDPOINT_WORDS, INFO_PLACE, LOST, LOST_PLACE, MESSAGE, SLOTS, SLOTS_PLACE, WAITING,
    WAITING_PLACE,
};
use crate::words::{bits, content, word, CONTENT_MAX, EMPTY_SLOT};

/// The twelve words of an endpoint.
pub type Endpoint = [u32; ENDPOINT_WORDS];

/// Takes the oldest message out, and gives it with the lost count.
///
/// The other waiting words move up, the slot that comes free is emptied, waiting
/// falls by 1. Slots from the waiting count on stay. Where not 1 to 8 are waiting
/// the words stay and nothing is given.
pub fn receive(endpoint: &mut Endpoint) -> Option<[u32; 2]> {
    let count = waiting(endpoint);
    if !(1..=SLOTS).contains(&count) {
        return None;
    }
    let message = content(endpoint[SLOTS_PLACE]);
    for slot in 1..count {
        endpoint[SLOTS_PLACE + slot - 1] = endpoint[SLOTS_PLACE + slot];
    }
    endpoint[SLOTS_PLACE + count - 1] = EMPTY_SLOT;
    endpoint[WAITING_PLACE] = word(WAITING, count as u32 - 1);
    Some([message, lost(endpoint)])
}

/// Puts a message last. A full queue drops its oldest one for it and lost rises;
/// where not 1 to 8 are waiting in a full queue the words stay.
pub fn send(endpoint: &mut Endpoint, message: u32) {
    if waiting(endpoint) < capacity(endpoint) {
        put_last(endpoint, message);
    } else if receive(endpoint).is_some() {
        put_last(endpoint, message);
        count_lost(endpoint);
    }
}

/// Fills the slot at the waiting count; waiting rises by 1. Where that slot would
/// lie past the eight the words stay.
fn put_last(endpoint: &mut Endpoint, message: u32) {
    let count = waiting(endpoint);
    if count < SLOTS {
        endpoint[SLOTS_PLACE + count] = word(MESSAGE, message);
        endpoint[WAITING_PLACE] = word(WAITING, count as u32 + 1);
    }
}

/// Lost rises by 1 and stays at its largest.
fn count_lost(endpoint: &mut Endpoint) {
    let risen = CONTENT_MAX.min(lost(endpoint) + 1);
    endpoint[LOST_PLACE] = word(LOST, risen);
}

fn waiting(endpoint: &Endpoint) -> usize {
    content(endpoint[WAITING_PLACE]) as usize
}

fn capacity(endpoint: &Endpoint) -> usize {
    bits(endpoint[INFO_PLACE], 7, 0) as usize
}

fn lost(endpoint: &Endpoint) -> u32 {
    content(endpoint[LOST_PLACE])
}
