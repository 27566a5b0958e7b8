//! Single sends and receives on any words: the proved queue's functions beside the
//! reference.
//!
//! In a run these functions see accepted tables only, whose slots from the waiting
//! count on are empty. Their contracts are for any words: whatever those slots hold
//! stays, and words that can't be served stay whole.

use std::ops::RangeInclusive;

use reference::generate::{any_endpoint, Rng};
use reference::queue::Endpoint;
use reference::table::{INFO_PLACE, LOST_PLACE, SLOTS, SLOTS_PLACE, WAITING_PLACE};
use reference::words::{bits, content, hex, CONTENT_MAX, EMPTY_SLOT};

use crate::kernels::for_tests::Queue;
use line::cases::random::rng_for;
use line::judging::trying::{try_all, Draws, Met};
use line::kernels::lent::words_here;

/// With how many waiting a receive is done.
const RECEIVABLE: RangeInclusive<u32> = 1..=8;

/// What must be met.
pub fn met() -> Met {
    let single = Met::of(&[
        "a send with space",
        "a send to a full queue",
        "a send with the lost count at its top",
        "words that a send leaves",
        "words that a receive leaves",
    ]);
    // With other slots than empty ones after the waiting, which 8 of them leave none of.
    single.and(Met::sizes("a receive, number waiting", RECEIVABLE, |_| 1))
}

fn count_send(met: &mut Met, before: &[u32], done: bool) {
    met.add("words that a send leaves", !done);
    if done {
        let space = waiting(before) < capacity(before);
        met.add("a send with space", space);
        met.add("a send to a full queue", !space);
        let at_top = !space && content(before[LOST_PLACE]) == CONTENT_MAX;
        met.add("a send with the lost count at its top", at_top);
    }
}

fn count_receive(met: &mut Met, before: &[u32], done: bool) {
    met.add("words that a receive leaves", !done);
    if done {
        let count = waiting(before);
        let after = &before[SLOTS_PLACE + count as usize..];
        let counts = after.is_empty() || after.iter().any(|&slot| slot != EMPTY_SLOT);
        met.add_code("a receive, number waiting", count, u64::from(counts));
    }
}

/// Tries words by their numbers; the first with which something is wrong.
pub fn try_queues(queue: &Queue, draws: &Draws, met: &mut Met) -> Result<(), String> {
    let found = try_all("words", draws, met, |number, met| {
        try_words(queue, draws.seed, number, met)
    });
    found.map_err(|found| found.report("case", "queue", draws))
}

/// Sends to some words and receives from the same.
fn try_words(queue: &Queue, seed: u64, number: u64, met: &mut Met) -> Result<(), String> {
    let rng = &mut rng_for(seed, number);
    let words = any_words(rng);
    let message = match rng.below(16) {
        0 => rng.word(),
        _ => content(rng.word()),
    };
    let wanted = reference_send(&words, message);
    count_send(met, &words, wanted.is_some());
    let sent = |lent: &mut [u32]| (queue.send)(lent, message);
    compare("a send", &words, sent, wanted)
        .map_err(|why| format!("{why}\n  the message: {message:08X}"))?;
    let wanted = reference_receive(&words);
    count_receive(met, &words, wanted.is_some());
    compare("a receive", &words, queue.receive, wanted)
}

/// Words to lend: twelve near what an endpoint can have, and now and then fewer.
fn any_words(rng: &mut Rng) -> Vec<u32> {
    let words = any_endpoint(rng);
    let length = match rng.below(16) {
        0 => rng.below(words.len()),
        _ => words.len(),
    };
    words[..length].to_vec()
}

fn waiting(words: &[u32]) -> u32 {
    content(words[WAITING_PLACE])
}

fn capacity(words: &[u32]) -> u32 {
    bits(words[INFO_PLACE], 7, 0)
}

/// What a send leaves where it is done: twelve words with a capacity of 1 to 8 and at
/// most 8 waiting, and a message of 28 bits.
fn reference_send(words: &[u32], message: u32) -> Option<Endpoint> {
    let mut endpoint: Endpoint = words.try_into().ok()?;
    let slots = SLOTS as u32;
    let queue = (1..=slots).contains(&capacity(words)) && waiting(words) <= slots;
    if !queue || message > CONTENT_MAX {
        return None;
    }
    reference::queue::send(&mut endpoint, message);
    Some(endpoint)
}

/// What a receive leaves where it is done: twelve words with 1 to 8 waiting.
fn reference_receive(words: &[u32]) -> Option<Endpoint> {
    let mut endpoint: Endpoint = words.try_into().ok()?;
    reference::queue::receive(&mut endpoint).map(|_| endpoint)
}

/// Compares what a function answers and leaves with what is wanted: nothing done,
/// or these words.
fn compare(
    what: &str,
    before: &[u32],
    act: impl FnOnce(&mut [u32]) -> bool,
    wanted: Option<Endpoint>,
) -> Result<(), String> {
    let (done, left) = words_here(before, act)?;
    let wanted_words = wanted.as_ref().map_or(before, |words| &words[..]);
    if done == wanted.is_some() && left == wanted_words {
        return Ok(());
    }
    Err(format!(
        "{what} on {}\n  answers {done} and leaves {}\n  it should be {} with {}",
        hex(before),
        hex(&left),
        wanted.is_some(),
        hex(wanted_words)
    ))
}

#[cfg(all(test, test_export))]
mod tests {
    use super::*;
    use crate::kernels::for_tests::PROVED_QUEUE;
    use line::trial::draws;

    const PROVED: Queue = match PROVED_QUEUE {
        Some(queue) => queue,
        None => panic!("built without the queue's functions"),
    };

    fn first_difference(queue: &Queue) -> String {
        let found = try_queues(queue, &draws(0..2000), &mut met());
        found.expect_err("it is found")
    }

    #[test]
    fn the_proved_queue_does_not_differ_and_everything_is_met() {
        let mut met = met();
        assert_eq!(try_queues(&PROVED, &draws(0..10_000), &mut met), Ok(()));
        assert_eq!(met.missing(), [""; 0]);
    }

    #[test]
    fn a_receive_that_clears_a_later_slot_is_found() {
        let report = first_difference(&Queue {
            receive: |words| {
                let done = (PROVED.receive)(words);
                if let (true, Some(last)) = (done, words.last_mut()) {
                    *last = EMPTY_SLOT;
                }
                done
            },
            ..PROVED
        });
        assert!(report.contains("  a receive on "), "{report}");
        assert!(report.contains("To see it again: bench queue --seed 1 --from "));
    }

    #[test]
    fn a_send_that_answers_otherwise_or_writes_elsewhere_is_found() {
        let report = first_difference(&Queue {
            send: |words, message| !(PROVED.send)(words, message),
            ..PROVED
        });
        assert!(report.contains("  a send on "), "{report}");
        let report = first_difference(&Queue {
            send: |words, message| {
                let done = (PROVED.send)(words, message);
                if let (true, Some(name)) = (done, words.first_mut()) {
                    *name ^= 1;
                }
                done
            },
            ..PROVED
        });
        assert!(report.contains("the message: "), "{report}");
    }

    #[test]
    fn a_send_that_writes_after_the_words_is_found() {
        let report = first_difference(&Queue {
            send: |words, message| {
                let done = (PROVED.send)(words, message);
                // SAFETY: the words are lent from the middle of a larger space.
                unsafe { *words.as_mut_ptr().add(words.len()) = 0 };
                done
            },
            ..PROVED
        });
        assert!(report.contains("outside the words"), "{report}");
    }
}
