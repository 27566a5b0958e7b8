//! Single calls of random lists: the proved kernel's public step beside the reference.
//!
//! The calls are those of the fuzz's random lists, on its random tables. Some get a
//! second word that no list would give them: a kind that takes none gets one, or the
//! second word of a look up or a send is of another kind than 15. The step's contract
//! is for any first and second word: a kind that takes none ignores it, and of another
//! kind only bits 27–0 count, which is how the reference takes them too.

use reference::calls::{cut, Call, LOOK_UP, SEND, STRAY};
use reference::entry::ANSWER_WORDS;
use reference::generate::Rng;
use reference::step_with_holders;
use reference::words::{bits, content, kind, word};

use line::cases::random::{holders_space, rng_for, run_case};
use line::cases::Case;
use line::judging::compare::{answer_as_printed, first_unequal, holders_difference};
use line::judging::panics::or_panic;
use line::judging::trying::{try_all, Draws, Found, Met};
use line::kernels::boundary::Outcome;
use line::kernels::boundary::{Step, NO_SPACE};
use line::kernels::child::{self, LIMIT};
use line::kernels::lent::{step_here, Failure, Ran};
use line::text::explain::{call_in_words, counted, meaning, place_in_words};
use line::text::hex;
use line::text::input::Input;
use line::text::names::Names;

/// No more calls of one list are tried than this.
const CALLS_MAX: usize = 64;

/// The codes of the step.
const STEP_CODES: [u32; 7] = [0, 2, 3, 4, 5, 6, NO_SPACE];

/// What must be met.
pub fn met() -> Met {
    let answers = Met::codes("answer code", [0].into_iter().chain(10..=23));
    Met::codes("code", STEP_CODES).and(answers).and(Met::of(&[
        "a second word not taken",
        "a second word of another kind than 15",
    ]))
}

fn count(met: &mut Met, call: &Call, code: u32, answer: Option<[u32; 3]>) {
    met.add_code("code", code, 1);
    let Some(answer) = answer else { return };
    met.add_code("answer code", bits(answer[0], 15, 0), 1);
    let Some(second) = call.second else { return };
    let takes = matches!(call.kind(), LOOK_UP | SEND);
    met.add("a second word not taken", !takes);
    let another = takes && kind(second) != STRAY;
    met.add("a second word of another kind than 15", another);
}

/// Tries the lists; the first that is wrong, with the call and the table before it.
pub fn try_steps(step: Step, draws: &Draws, met: &mut Met) -> Result<(), String> {
    let found = try_all("lists", draws, met, |number, met| {
        try_list(draws.seed, number, met, |case, call| {
            step_here(step, case, call)
        })
    });
    found.map_err(|found| report(step, draws, &found))
}

/// What to show of a list that is wrong: where it came from, what is wrong, and with
/// which call.
fn report(step: Step, draws: &Draws, found: &Found) -> String {
    let limit = draws.limit.min(LIMIT);
    let alone = try_list(draws.seed, found.number, &mut met(), |case, call| {
        child::step(step, case, call, limit)
    });
    let again = found.again("step", "--cases", draws, alone.is_err());
    let why = alone.err().unwrap_or_else(|| found.why.clone());
    Found {
        why,
        ..found.clone()
    }
    .head("list", draws)
        + again.trim_end()
}

/// Feeds the calls of one list to a step, each on the table that the one before it left.
fn try_list(
    seed: u64,
    number: u64,
    met: &mut Met,
    step: impl Fn(&Case, &Call) -> Result<Ran, Failure>,
) -> Result<(), String> {
    let list = run_case(seed, number);
    let rng = &mut rng_for(seed.rotate_left(32), number);
    let mut table = list.table;
    for call in cut(&list.list).iter().take(CALLS_MAX) {
        let call = &with_any_second(rng, call);
        let holders = holders_space(rng, &table);
        let case = Case {
            table,
            list: call.words(),
            answers: space(rng),
            holders,
        };
        let wanted = reference_step(&case, call)?;
        let wrong = match step(&case, call) {
            Ok(ran) => difference(&case, &ran, &wanted),
            Err(failure) => Some(failure.to_string()),
        };
        if let Some(why) = wrong {
            return Err(with_words(&case, call, &why));
        }
        let code = wanted.outcome.code;
        let answer = wanted.answers.first_chunk().copied();
        count(met, call, code, answer.filter(|_| code == 0));
        table = wanted.table;
    }
    Ok(())
}

/// A call, now and then with a second word that no list gives it.
fn with_any_second(rng: &mut Rng, call: &Call) -> Call {
    if !rng.chance(1, 8) {
        return *call;
    }
    let second = match call.second {
        Some(second) => word(rng.below(16) as u32, content(second)),
        None => rng.word(),
    };
    Call {
        second: Some(second),
        ..*call
    }
}

/// An answer space, mostly large enough.
fn space(rng: &mut Rng) -> Vec<u32> {
    let words = match rng.below(32) {
        0 => rng.below(3),
        _ => rng.between(3, 5),
    };
    (0..words).map(|_| rng.word()).collect()
}

/// The reference's step; an error where it panics, which is a difference from
/// a kernel that answers.
fn reference_step(case: &Case, call: &Call) -> Result<Ran, String> {
    or_panic(|| {
        let (mut table, mut answers) = (case.table.clone(), case.answers.clone());
        let mut holders = case.holders.clone();
        let code = match answers.first_chunk_mut::<ANSWER_WORDS>() {
            None => NO_SPACE,
            Some(answer) => match step_with_holders(&mut table, call, &mut holders) {
                Ok(words) => {
                    *answer = words;
                    0
                }
                Err(code) => code,
            },
        };
        Ran {
            outcome: Outcome { code, calls: 1 },
            table,
            answers,
            holders,
        }
    })
}

/// The first difference between a step and what is wanted of it.
fn difference(case: &Case, ran: &Ran, wanted: &Ran) -> Option<String> {
    let (code, wanted_code) = (ran.outcome.code, wanted.outcome.code);
    if code != wanted_code {
        return Some(format!(
            "the kernel's step returns {code} ({}), the reference {wanted_code} ({})",
            meaning(code),
            meaning(wanted_code)
        ));
    }
    answer_difference(case, ran, wanted)
        .or_else(|| table_difference(case, ran, wanted))
        .or_else(|| holders_difference(case, ran, wanted))
}

fn answer_difference(case: &Case, ran: &Ran, wanted: &Ran) -> Option<String> {
    let place = first_unequal(&ran.answers, &wanted.answers)?;
    if wanted.outcome.code != 0 || place >= ANSWER_WORDS {
        return Some(format!(
            "word {place} of the answer space is no answer's and was {:08X}: the kernel \
             leaves {:08X}",
            case.answers[place], ran.answers[place]
        ));
    }
    Some(format!(
        "the kernel answers {}, the reference {}",
        answer_as_printed(&ran.answers),
        answer_as_printed(&wanted.answers)
    ))
}

fn table_difference(case: &Case, ran: &Ran, wanted: &Ran) -> Option<String> {
    let place = first_unequal(&ran.table, &wanted.table)?;
    let word = match wanted.outcome.code {
        0 => place_in_words(&case.table, place, &Names::none()),
        code => format!("word {place} where the step returns {code}"),
    };
    Some(format!(
        "{word}, was {:08X}: the kernel leaves {:08X}, the reference {:08X}",
        case.table[place], ran.table[place], wanted.table[place]
    ))
}

/// What is wrong, with the table before the call and the call.
fn with_words(case: &Case, call: &Call, why: &str) -> String {
    let input = Input {
        table: case.table.clone(),
        list: case.list.clone(),
    };
    format!(
        "{why}\nThe call ({}) and the table before it, as `balkwizu write` takes them:\n{}\
         # answer space: {}",
        call_in_words(call, &Names::none()),
        hex::write(&input),
        counted(case.answers.len(), "word")
    )
}

#[cfg(all(test, test_export))]
mod tests {
    use super::*;
    use crate::kernels::for_tests::PROVED_STEP;
    use line::trial::draws;

    const PROVED: Step = match PROVED_STEP {
        Some(step) => step,
        None => panic!("built without the step"),
    };

    fn first_difference(step: Step) -> Option<String> {
        try_steps(step, &draws(0..2000), &mut met()).err()
    }

    /// What is reported of a step that does one more thing once the proved one is done.
    macro_rules! report {
        (|$table:ident, $call:ident, $answer:ident, $code:ident| $fault:expr) => {
            first_difference(|$table, $call, $answer, holders| {
                let $code = PROVED($table, $call, $answer, holders);
                $fault
            })
            .expect("it is found")
        };
    }

    #[test]
    fn the_proved_step_does_not_differ_and_everything_is_met() {
        let mut met = met();
        assert_eq!(try_steps(PROVED, &draws(0..5000), &mut met), Ok(()));
        assert_eq!(met.missing(), [""; 0]);
    }

    #[test]
    fn a_step_that_stops_is_found_with_its_call() {
        let fault = report!(|_t, call, _a, code| {
            if call.kind() == SEND {
                std::process::abort();
            }
            code
        });
        assert!(fault.starts_with("STOPPED in list "), "{fault}");
        assert!(fault.contains("ended by signal 6 (aborted)\nThe call (domain "));
        assert!(fault.contains(" sends "), "{fault}");
        let endless = report!(|_t, call, _a, code| {
            while call.kind() == SEND {
                std::hint::spin_loop();
            }
            code
        });
        assert!(
            endless.contains("not returned after 0.5 s\nThe call"),
            "{endless}"
        );
    }

    #[test]
    fn a_step_that_is_wrong_only_after_others_is_reported_as_such() {
        use std::sync::atomic::{AtomicU32, Ordering::Relaxed};
        static STEPS: AtomicU32 = AtomicU32::new(0);
        let tires =
            report!(|_t, _c, _a, code| code + u32::from(STEPS.fetch_add(1, Relaxed) == 200));
        assert!(tires.contains("Only after those before it"), "{tires}");
        assert!(tires.contains(" --from 0 --cases "), "{tires}");
    }

    #[test]
    fn a_faulty_step_is_found() {
        let code = report!(|_t, _c, _a, code| if code == 5 { 0 } else { code });
        assert!(code.contains("the reference 5 (an endpoint"));
        let space = report!(|_t, _c, _a, code| code % 99);
        assert!(space.contains("returns 0 (done), the reference 99"));
        let answer = report!(|_t, _c, answer, code| {
            if code == 0 {
                answer[2] ^= 1;
            }
            code
        });
        assert!(answer.contains("\n  the kernel answers"), "{answer}");
        let table = report!(|table, _c, _a, code| {
            if code == 0 {
                table[1] ^= 1;
            }
            code
        });
        assert!(table.contains("\n  word 1, the rights of"), "{table}");
    }

    #[test]
    fn a_step_that_keeps_the_holders_it_was_lent_is_found() {
        let kept = first_difference(|table, call, answer, holders| {
            let lent = holders.to_vec();
            let code = PROVED(table, call, answer, holders);
            holders.copy_from_slice(&lent);
            code
        });
        let kept = kept.expect("it is found");
        assert!(kept.contains("\n  the holders of domain 0"), "{kept}");
    }

    #[test]
    fn a_step_that_writes_what_it_should_leave_is_found() {
        let beyond = report!(|_t, _c, answer, code| {
            if let Some(word) = answer.get_mut(3) {
                *word ^= 1;
            }
            code
        });
        assert!(beyond.contains("\n  word 3 of the answer space is no answer's"));
        let refused = report!(|table, _c, _a, code| {
            if let (4, Some(word)) = (code, table.last_mut()) {
                *word ^= 1;
            }
            code
        });
        assert!(refused.contains("where the step returns 4"), "{refused}");
    }

    #[test]
    fn a_step_that_takes_second_words_otherwise_is_found() {
        let stray_only = first_difference(|table, call, answer, holders| {
            let second = call.second.filter(|&word| kind(word) == STRAY);
            PROVED(table, &Call { second, ..*call }, answer, holders)
        });
        assert!(stray_only.expect("it is found").contains("code 14"));
        let table = [0x1000_0100, 0x2000_0000];
        let call = Call {
            first: 0x5000_0000,
            second: Some(0x1234_5678),
        };
        let case = Case {
            table: table.to_vec(),
            list: call.words(),
            answers: vec![7; 4],
            holders: vec![7],
        };
        let wanted = reference_step(&case, &call).unwrap();
        assert_eq!(wanted.answers, [0x5000_0000, 0, 0, 7]);
        assert_eq!(step_here(PROVED, &case, &call), Ok(wanted));
    }
}
