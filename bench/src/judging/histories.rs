//! Random histories of turns (document 02, request (m)): the proved layer beside the
//! reference, event by event, every word that is lent compared.
//!
//! While the state is one that handing in and turns make, no oldest call of a domain may
//! wait longer than as many turns as there are domains, and none that is handed in after k
//! others longer than 1 + k times as many; and the calls served must get the answers, and
//! leave the table and the holders, that a run of them as one list does. Where each event is
//! lent the holders that the one before it left, they must be what the table says after
//! every event from the beginning on.

use reference::calls::{LOOK_UP, SEND, STRAY};
use reference::entry::ANSWER_WORDS;
use reference::table::{domains, DOMAINS_MAX};
use reference::turns::PENDING_WORDS;
use reference::words::{hex, kind};
use reference::{holders, Call};

use crate::cases::histories::{history, Next};
use line::judging::trying::{try_all, Draws, Met};
use line::judging::turning::{
    difference, pending_words, separate_event, served, word_behind, Served, Waits,
};
use line::kernels::layer::{event_here, Event, Layer, Left, Lent};
use line::text::explain::counted;

/// The codes that handing in is refused with, and those of a turn and of a beginning.
const HAND_IN_CODES: [u32; 8] = [2, 3, 4, 5, 35, 36, 99, 37];
const TURN_CODES: [u32; 6] = [2, 3, 4, 5, 6, 99];

/// What must be met. A wait is the most turns that a call waited.
pub fn met() -> Met {
    let n = DOMAINS_MAX as u32;
    Met::codes("handing in refused with", HAND_IN_CODES)
        .and(Met::codes("a turn refused with", TURN_CODES))
        .and(Met::codes("a beginning refused with", TURN_CODES))
        .and(Met::sizes(
            "a turn refused with 6, words for an answer",
            0..=2,
            |_| 1,
        ))
        .and(Met::of(&[
            "a turn refused with 6 for the holders",
            "an event",
            "a beginning",
            "a call handed in",
            "a call served",
            "an idle turn",
            "an idle turn with few words for an answer",
            "an event after which the holders are what the table says",
            "a domain's words just filled",
            "a count above 16",
            "a place above n",
            "a stray served",
            "an old second word left alone",
            "a part of a history run as one list",
            "a call in such a list",
            "more calls served than a list can have",
        ]))
        .and(Met::sizes(OLDEST, 1..=n, u64::from))
        .and(Met::sizes(ANY, 1..=n, |_| 1))
}

/// The longest waits: of the oldest call of a domain, at most n turns with n domains, and of
/// any since it was handed in, at most 16 n.
const OLDEST: &str = "turns that an oldest call waited, number of domains";
const ANY: &str = "turns that a call waited, number of domains";

fn count(met: &mut Met, next: &Next, left: &Left) {
    let done = left.code == 0;
    met.add("an event", true);
    match &next.event {
        Event::Begin => {
            met.add_code("a beginning refused with", left.code, 1);
            met.add("a beginning", done);
        }
        Event::HandIn { domain, .. } => {
            met.add_code("handing in refused with", left.code, 1);
            met.add("a call handed in", done);
            let pending = pending_words(&left.words.state, *domain as usize).len();
            met.add(
                "a domain's words just filled",
                done && pending == PENDING_WORDS,
            );
        }
        Event::Turn => count_turn(met, &next.lent, left),
    }
}

fn count_turn(met: &mut Met, lent: &Lent, left: &Left) {
    met.add_code("a turn refused with", left.code, 1);
    let words = lent.answer.len();
    if left.code == 6 {
        let enough = lent.holders.len() == domains(&lent.table);
        met.add("a turn refused with 6 for the holders", !enough);
        let name = "a turn refused with 6, words for an answer";
        met.add_code(name, words as u32, u64::from(enough));
    }
    let Some((domain, call)) = served(lent, left) else {
        let idle = left.code == 0;
        met.add("an idle turn", idle);
        met.add(
            "an idle turn with few words for an answer",
            idle && words < ANSWER_WORDS,
        );
        return;
    };
    met.add("a call served", true);
    let pending = lent.state[1 + (1 + PENDING_WORDS) * domain];
    met.add("a count above 16", pending > PENDING_WORDS as u32);
    met.add(
        "a place above n",
        lent.state[0] as usize > domains(&lent.table),
    );
    met.add("a stray served", call.is_stray());
    met.add(
        "an old second word left alone",
        has_old_second(lent, domain, &call),
    );
}

/// Whether a call of one word that could have two is the only one pending, with a word
/// after it that would be its second.
fn has_old_second(lent: &Lent, domain: usize, call: &Call) -> bool {
    matches!(call.kind(), LOOK_UP | SEND)
        && call.second.is_none()
        && pending_words(&lent.state, domain).len() == 1
        && word_behind(&lent.state, domain).map(kind) == Some(STRAY)
}

/// Tries histories; the first that is wrong, with its words.
pub fn try_histories(layer: &Layer, draws: &Draws, met: &mut Met) -> Result<(), String> {
    let found = try_all("histories", draws, met, |number, met| {
        try_history(layer, draws.seed, number, met)
    });
    found.map_err(|found| found.report("history", "histories", draws))
}

fn try_history(layer: &Layer, seed: u64, number: u64, met: &mut Met) -> Result<(), String> {
    let mut history = history(seed, number);
    let mut log = Log::begin(&history.table);
    let mut happened = 0;
    while let Some(next) = history.next() {
        let wrong = |why: String| with_words(happened, &next, &why);
        let left = event_here(layer, &next.lent, &next.event);
        let left = left.map_err(|failure| wrong(failure.to_string()))?;
        let wanted = separate_event(&next.lent, &next.event).map_err(wrong)?;
        if let Some(why) = difference(&next.lent, &left, &wanted) {
            return Err(wrong(why));
        }
        count(met, &next, &left);
        if next.own {
            let begun = next.event == Event::Begin && left.code == 0;
            history.proper |= begun;
            if history.proper {
                log.note(&next, &left, met).map_err(wrong)?;
            }
            (history.table, history.state) = (left.words.table, left.words.state);
            if next.kept {
                history.shown |= begun;
                history.holders = left.words.holders;
            }
            if history.shown {
                holders_are_shown(&history.table, &history.holders).map_err(wrong)?;
                met.add(
                    "an event after which the holders are what the table says",
                    true,
                );
            }
        }
        happened += 1;
    }
    log.ended(met)
}

/// That holders are what a table says.
fn holders_are_shown(table: &[u32], kept: &[u32]) -> Result<(), String> {
    match kept == holders(table) {
        true => Ok(()),
        false => Err(format!(
            "the holders that are handed on are {}, and the table says {}",
            hex(kept),
            hex(&holders(table))
        )),
    }
}

/// What was served, and who waited how long, since the beginning of a state that only
/// handing in and turns altered.
struct Log {
    served: Served,
    waits: Waits,
}

impl Log {
    fn begin(table: &[u32]) -> Log {
        Log {
            served: Served::begin(table),
            waits: Waits::new(domains(table)),
        }
    }

    /// Takes note of an event; an error where a call isn't served in time.
    fn note(&mut self, next: &Next, left: &Left, met: &mut Met) -> Result<(), String> {
        match next.event {
            Event::Begin if left.code == 0 => {
                self.ended(met)?;
                *self = Log::begin(&next.lent.table);
            }
            Event::Turn if left.code == 0 => {
                self.served.note(&next.lent, left);
                self.waits.turned(&next.lent, left)?;
            }
            _ => {}
        }
        Ok(())
    }

    fn ended(&self, met: &mut Met) -> Result<(), String> {
        let Waits {
            longest,
            longest_of_all,
            ..
        } = &self.waits;
        for (name, waits) in [(OLDEST, longest), (ANY, longest_of_all)] {
            let most = waits.iter().max().copied().unwrap_or(0);
            met.most(name, waits.len() as u32, most as u64);
        }
        let calls = self.served.calls() as u64;
        met.add("a part of a history run as one list", calls > 0);
        met.add("a call in such a list", calls);
        met.add(
            "more calls served than a list can have",
            self.served.pass_a_list(),
        );
        self.served.as_one_list()
    }
}

/// What is wrong, with the event and all that it was lent.
fn with_words(happened: usize, next: &Next, why: &str) -> String {
    let event = match &next.event {
        Event::Begin => "a beginning".to_string(),
        Event::HandIn { domain, words } => format!("domain {domain} hands in {}", hex(words)),
        Event::Turn => "a turn".to_string(),
    };
    let Lent {
        table,
        state,
        holders,
        answer,
    } = &next.lent;
    format!(
        "{why}\nEvent {happened}, {event}, on the table\n{}\nthe state\n{}\nwith {} for the \
         holders and {} for the answer",
        hex(table),
        hex(state),
        counted(holders.len(), "word"),
        counted(answer.len(), "word")
    )
}

#[cfg(test)]
mod tests {
    use super::*;
    use line::kernels::layer::PROVED_LAYER;
    use line::trial::draws;

    fn reported(wrong: Layer) -> String {
        let found = try_histories(&wrong, &draws(0..2000), &mut met());
        found.expect_err("it is found")
    }

    #[test]
    fn the_proved_layer_does_not_differ_and_everything_is_met() {
        let mut met = met();
        assert_eq!(
            try_histories(&PROVED_LAYER, &draws(0..1000), &mut met),
            Ok(())
        );
        assert_eq!(met.missing(), [""; 0], "{}", met.in_words());
    }

    /// A layer that does one more thing once the proved turn is over.
    macro_rules! turns {
        (|$table:ident, $state:ident, $holders:ident, $answer:ident, $answered:ident| $fault:expr) => {
            reported(Layer {
                turn: |$table, $state, $holders, $answer| {
                    let $answered = (PROVED_LAYER.turn)($table, $state, $holders, $answer);
                    $fault
                },
                ..PROVED_LAYER
            })
        };
    }

    #[test]
    fn a_wrong_turn_is_found() {
        let code = turns!(|_t, _s, _h, _a, answered| if answered == 99 { 0 } else { answered });
        assert!(code.contains("answers 0 (none served), the reference 99 ("));
        let idle = turns!(|_t, state, _h, _a, answered| {
            if let (0, Some(place)) = (answered, state.first_mut()) {
                *place = 0;
            }
            answered
        });
        assert!(idle.contains("word 0 of the state, was "), "{idle}");
        let answer = turns!(|_t, _s, _h, answer, answered| {
            if answered == 0x10000 {
                answer[1] ^= 1;
            }
            answered
        });
        assert!(answer.contains("answers the call with "), "{answer}");
        let holders = turns!(|_t, _s, holders, _a, answered| {
            if answered == 0x10000 {
                holders[0] ^= 1;
            }
            answered
        });
        assert!(holders.contains("word 0 of the holders"), "{holders}");
        assert!(holders.contains("To see it again: bench histories --seed 1 --from "));
    }

    #[test]
    fn a_turn_that_writes_outside_or_stops_is_found() {
        let outside = turns!(|_t, state, _h, _a, answered| {
            // SAFETY: the words are lent from the middle of a larger space.
            unsafe { *state.as_mut_ptr().add(state.len()) = 0 };
            answered
        });
        assert!(outside.contains("outside the state of the turns"));
        let stops = turns!(|_t, _s, _h, _a, answered| {
            if answered == 6 {
                std::process::abort();
            }
            answered
        });
        assert!(stops.starts_with("STOPPED in history "), "{stops}");
    }

    /// A layer that does one more thing once words are handed in.
    macro_rules! hands_in {
        (|$table:ident, $words:ident, $code:ident| $fault:expr) => {
            reported(Layer {
                hand_in: |$table, state, domain, $words| unsafe {
                    let $code = (PROVED_LAYER.hand_in)($table, state, domain, $words);
                    $fault
                },
                ..PROVED_LAYER
            })
        };
    }

    #[test]
    fn handing_in_that_writes_what_it_reads_is_found() {
        let table = hands_in!(|table, _w, code| {
            if code == 37 {
                *table.cast_mut().cast::<u32>() ^= 1;
            }
            code
        });
        assert!(table.contains("wrote a table that it only reads"));
        let words = hands_in!(|_t, words, code| {
            if code == 0 {
                *words.cast_mut().cast::<u32>() ^= 1;
            }
            code
        });
        assert!(words.contains("wrote the words handed in"), "{words}");
    }

    #[test]
    fn wrong_handing_in_is_found() {
        let stray = hands_in!(|_t, words, code| match &*words {
            [one] if code == 36 && kind(*one) == STRAY => 0,
            _ => code,
        });
        assert!(stray.contains("the reference 36 ("), "{stray}");
    }

    /// A layer that does one more thing once it has begun.
    macro_rules! begins {
        (|$table:ident, $state:ident, $holders:ident, $code:ident| $fault:expr) => {
            reported(Layer {
                begin: |$table, $state, $holders| unsafe {
                    let $code = (PROVED_LAYER.begin)($table, $state, $holders);
                    $fault
                },
                ..PROVED_LAYER
            })
        };
    }

    #[test]
    fn a_wrong_beginning_is_found() {
        let state = begins!(|_t, state, _h, code| {
            if code == 0 {
                *state.cast::<u32>() = 1;
            }
            code
        });
        assert!(state.contains("word 0 of the state"), "{state}");
        let left = begins!(|_t, _s, holders, code| {
            if code == 0 {
                *holders.cast::<u32>() ^= 1;
            }
            code
        });
        assert!(left.contains("word 0 of the holders"), "{left}");
        let table = begins!(|table, _s, _h, code| {
            if code == 0 {
                *table.cast_mut().cast::<u32>() ^= 1;
            }
            code
        });
        assert!(table.contains("wrote a table that it only reads"));
        let code = begins!(|_t, _s, _h, code| if code == 99 { 0 } else { code });
        assert!(code.contains("the reference 99 ("), "{code}");
    }
}
