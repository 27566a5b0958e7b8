//! What happens to the turns of the spring model: domains hand in, and turns come.

use super::{call_words, lent_panel, wild_word, Rng};
use crate::calls::{cut, STRAY};
use crate::table::domains;
use crate::turns::Turns;
use crate::words::word;

/// One thing that happens.
#[derive(Debug, Clone, PartialEq, Eq)]
pub enum Event {
    HandIn {
        domain: u32,
        words: Vec<u32>,
    },
    /// A turn that is lent these of the panel's words, mostly n of them.
    Turn {
        panel: Vec<u32>,
    },
}

/// So many events from an accepted table, at times mostly handing in and at times mostly
/// turns, so that pending words fill and empty. Handing in is now and then refused by 35,
/// 36 or 37, and a turn by 6. On the table that the turns leave most calls do something.
pub fn events(rng: &mut Rng, table: &[u32], count: usize) -> Vec<Event> {
    let mut now = table.to_vec();
    let mut turns = Turns::begin();
    let mut events = Vec::new();
    let mut turn_times = 4;
    for _ in 0..count {
        if rng.chance(1, 16) {
            turn_times = rng.pick(&[1, 4, 7]);
        }
        let event = if rng.chance(turn_times, 8) {
            let panel = lent_panel(rng, domains(table));
            Event::Turn { panel }
        } else {
            hand_in(rng, &now)
        };
        // What is refused changes nothing, so that its code doesn't matter here.
        match &event {
            Event::HandIn { domain, words } => {
                turns.hand_in(&now, *domain, words);
            }
            Event::Turn { panel } => {
                let _ = turns.turn(&mut now, &mut panel.clone());
            }
        }
        events.push(event);
    }
    events
}

/// A call handed in by its caller, now and then by another, or with other words than
/// those of one call.
fn hand_in(rng: &mut Rng, table: &[u32]) -> Event {
    let n = domains(table);
    let first = cut(&call_words(rng, table))[0];
    let mut words = first.words();
    let mut domain = first.caller().unwrap_or(0);
    match rng.below(32) {
        0 => domain = rng.below(n) as u32,
        1 => domain = rng.size(n, u32::MAX as usize) as u32,
        2 => words.clear(),
        3 => words.push(word(STRAY, 0)),
        4 => words.extend(call_words(rng, table)),
        5 => words.truncate(1),
        6 => words = (0..rng.below(20)).map(|_| wild_word(rng)).collect(),
        _ => {}
    }
    Event::HandIn { domain, words }
}
