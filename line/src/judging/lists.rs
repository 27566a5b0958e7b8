//! Random lists to be written (document 02, request (c)): the proved writer beside the
//! reference's, on calls as plain words; and what a run says of calls that the reference's
//! reader takes or refuses.

use reference::calls::{LIST_WORDS_MAX, MY_RIGHTS};
use reference::entry::ANSWER_WORDS;
use reference::generate::{columns, value_too_large, values_of_words, writing, Rng, Writing};
use reference::words::{bits, hex};
use reference::writer::{to_columns, COLUMNS};
use reference::{read, write, write_columns, Value};

use crate::cases::random::rng_for;
use crate::judging::compare::first_unequal;
use crate::judging::trying::{try_all, Draws, Met};
use crate::kernels::boundary::{Writer, Written};
use crate::kernels::lent::words_here;
use crate::text::calls::width;
use crate::text::explain::counted;

/// The codes by which the reader refuses a call whatever the table.
const READER_CODES: [u32; 4] = [10, 11, 13, 14];

/// A number of 16 bits at its largest: what is above it must be reported as it is.
const ABOVE: usize = 65_535;

/// What lists must meet.
pub fn met() -> Met {
    Met::codes("list code", [0, 30, 31]).and(Met::of(&[
        "a list of 4,096 words",
        "a list that fills the space",
        "words left over after the last call",
        "4,097 calls of which the last is bad",
        "a bad call above 65,535",
        "a list of 4,097 words",
        "a space too short by one word",
    ]))
}

fn count(met: &mut Met, calls: &[u32], space: usize, (code, number): Written) {
    met.add_code("list code", code, 1);
    let (written, bad) = (code == 0, code == 30);
    met.add("a list of 4,096 words", written && number == LIST_WORDS_MAX);
    met.add(
        "a list that fills the space",
        written && number == space && number > 0,
    );
    met.add(
        "words left over after the last call",
        bad && number == calls.len() / COLUMNS,
    );
    met.add(
        "4,097 calls of which the last is bad",
        bad && number == LIST_WORDS_MAX,
    );
    met.add("a bad call above 65,535", bad && number > ABOVE);
    if code == 31 {
        let words: usize = calls.chunks(COLUMNS).map(width).sum();
        let passed = words == LIST_WORDS_MAX + 1 && words <= space;
        met.add("a list of 4,097 words", passed);
        let short = words == space + 1 && words <= LIST_WORDS_MAX;
        met.add("a space too short by one word", short);
    }
}

/// What is handed to the writer.
struct Drawn {
    values: Vec<Value>,
    /// The same as plain words, five each; and where `odd_end` says so a part of a call
    /// more.
    calls: Vec<u32>,
    odd_end: bool,
    space: Vec<u32>,
}

/// Tries lists by their numbers; the first with which something is wrong.
pub fn try_lists(writer: Writer, draws: &Draws, met: &mut Met) -> Result<(), String> {
    let found = try_all("lists", draws, met, |number, met| {
        let drawn = list_to_write(draws.seed, number);
        let answer = compare(writer, &drawn)?;
        count(met, &drawn.calls, drawn.space.len(), answer);
        Ok(())
    });
    found.map_err(|found| {
        let Drawn { calls, space, .. } = list_to_write(draws.seed, found.number);
        let line = "fuzz --cases 0 --table-checks 0";
        format!(
            "{}{}{} into {}:\n{}",
            found.head("list", draws),
            found.again(line, "--lists", draws, true),
            counted(calls.len().div_ceil(COLUMNS), "call"),
            counted(space.len(), "word"),
            in_rows(&calls)
        )
    })
}

/// Calls as plain words, one a line; the first of them where they are many.
fn in_rows(calls: &[u32]) -> String {
    const SHOWN: usize = 40;
    let rows = calls.chunks(COLUMNS).take(SHOWN);
    let mut text: String = rows.map(|call| hex(call) + "\n").collect();
    if calls.len() > SHOWN * COLUMNS {
        text += "and more\n";
    }
    text
}

/// The list of a number. What is aimed at goes round with the number, so that 500 of them
/// meet everything.
fn list_to_write(seed: u64, number: u64) -> Drawn {
    let rng = &mut rng_for(seed.rotate_left(32), number);
    let values = match (number % 500, number % 100) {
        (499, _) => one_word_calls(rng, ABOVE + 2, true),
        (_, 20) => one_word_calls(rng, LIST_WORDS_MAX + 1, true),
        (_, 40) => one_word_calls(rng, LIST_WORDS_MAX + 1, false),
        (_, 60) => values_of_words(rng, LIST_WORDS_MAX),
        (_, 80) => values_of_words(rng, LIST_WORDS_MAX + 1),
        _ => {
            let Writing { calls, space } = writing(rng, 12);
            return drawn(rng, calls, space);
        }
    };
    let words = LIST_WORDS_MAX + rng.below(4);
    let space = (0..words).map(|_| rng.word()).collect();
    drawn(rng, values, space)
}

/// So many calls of one word each, the last of which can't be written where it is to be
/// bad.
fn one_word_calls(rng: &mut Rng, count: usize, last_bad: bool) -> Vec<Value> {
    let caller = rng.below(64) as u32;
    let mut calls = vec![Value::MyRights { caller }; count];
    if last_bad {
        calls[count - 1] = value_too_large(rng);
    }
    calls
}

/// Calls and a space, now and then with one to four words of a call more.
fn drawn(rng: &mut Rng, values: Vec<Value>, space: Vec<u32>) -> Drawn {
    let mut calls = columns(rng, &values);
    let odd_end = rng.chance(1, 16) && values.len() < LIST_WORDS_MAX;
    if odd_end {
        calls.extend(&[MY_RIGHTS, 0, 0, 0][..rng.between(1, COLUMNS - 1)]);
    }
    Drawn {
        values,
        calls,
        odd_end,
        space,
    }
}

/// Compares what a writer answers and leaves with what the reference does, of plain
/// words and of calls as values; and the calls with what the reference's reader makes of the
/// words. The answer where all are the same.
fn compare(writer: Writer, drawn: &Drawn) -> Result<Written, String> {
    let (written, calls_left) = words_here(&drawn.calls, |calls| {
        words_here(&drawn.space, |list| writer(calls, list))
    })?;
    let (answer, left) = written?;
    if calls_left != drawn.calls {
        return Err("the writer wrote the calls".to_string());
    }
    let mut wanted = drawn.space.clone();
    let wanted_answer = write_columns(&drawn.calls, &mut wanted);
    same(&drawn.space, (answer, &left), (wanted_answer, &wanted))?;
    if drawn.odd_end {
        return Ok(answer);
    }
    let mut wanted = drawn.space.clone();
    let wanted_answer = write(&drawn.values, &mut wanted);
    same(&drawn.space, (answer, &left), (wanted_answer, &wanted))?;
    let (code, number) = answer;
    if code == 0 && read(&left[..number]) != drawn.values {
        return Err("the words are read as other calls".to_string());
    }
    Ok(answer)
}

/// That two writers answer the same and leave the same words of a space.
fn same(
    before: &[u32],
    (answer, left): (Written, &[u32]),
    (wanted_answer, wanted): (Written, &[u32]),
) -> Result<(), String> {
    if answer != wanted_answer {
        return Err(format!(
            "the writer answers {} with {}, the reference {} with {}",
            answer.0, answer.1, wanted_answer.0, wanted_answer.1
        ));
    }
    match first_unequal(left, wanted) {
        None => Ok(()),
        Some(place) => Err(format!(
            "word {place} of the list, {:08X} before, is left as {:08X} by the writer and as \
             {:08X} by the reference; both answer {} with {}",
            before[place], left[place], wanted[place], answer.0, answer.1
        )),
    }
}

/// That a run refused by 10, 11, 13 and 14 just the calls that the reference's reader
/// refuses, and by the same number: those of an unknown caller apart, which are 12
/// before 13 and 14. And that what is read without such a call is written as it came.
/// Whether the list was one of those.
pub fn read_as_answered(writer: Writer, list: &[u32], answers: &[u32]) -> Result<bool, String> {
    let calls = read(list);
    let said = answers.chunks_exact(ANSWER_WORDS);
    if said.len() < calls.len() {
        let calls = counted(calls.len(), "call");
        return Err(format!("{calls} have {} words of answers", answers.len()));
    }
    for (number, (call, answer)) in calls.iter().zip(said).enumerate() {
        let code = bits(answer[0], 15, 0);
        let refused = match call {
            Value::Refused(code) => Some(*code),
            _ => None,
        };
        if code != 12 && refused != Some(code).filter(|code| READER_CODES.contains(code)) {
            return Err(format!(
                "call {number} is answered with {code} and read as {call:?}"
            ));
        }
    }
    let as_it_came = calls.iter().all(|call| !matches!(call, Value::Refused(_)));
    if as_it_came {
        let columns: Vec<u32> = calls.iter().filter_map(to_columns).flatten().collect();
        let mut space = vec![0; list.len()];
        let answer = writer(&columns, &mut space);
        if answer != (0, list.len()) || space != list {
            return Err(format!(
                "the list is read and written as {}, with {} and {}",
                hex(&space),
                answer.0,
                answer.1
            ));
        }
    }
    Ok(as_it_came)
}

#[cfg(test)]
mod tests {
    use super::*;
    use crate::kernels::boundary::PROVED_WRITER;
    use crate::trial::draws;
    use reference::example::LIST_L;

    fn first_difference(writer: Writer) -> String {
        let found = try_lists(writer, &draws(1..500), &mut met());
        found.expect_err("it is found")
    }

    #[test]
    fn the_proved_writer_does_not_differ_and_everything_is_met() {
        for start in [0, 777] {
            let mut met = met();
            let numbers = draws(start..start + 500);
            assert_eq!(try_lists(PROVED_WRITER, &numbers, &mut met), Ok(()));
            assert_eq!(met.missing(), [""; 0]);
        }
    }

    #[test]
    fn a_writer_that_answers_otherwise_is_found() {
        let why = first_difference(|calls, list| {
            let (code, number) = PROVED_WRITER(calls, list);
            (code, number + usize::from(code == 30))
        });
        assert!(why.starts_with("DIFFERENCE in list "), "{why}");
        assert!(why.contains("the writer answers 30 with "), "{why}");
        assert!(why.contains(" --lists 1\n"), "{why}");
    }

    #[test]
    fn a_writer_that_writes_past_its_words_or_before_a_refusal_is_found() {
        let why = first_difference(|calls, list| {
            let (code, number) = PROVED_WRITER(calls, list);
            if code == 0 {
                list[number..].fill(0);
            }
            (code, number)
        });
        assert!(why.contains("; both answer 0 with "), "{why}");
        let why = first_difference(|calls, list| {
            let answer = PROVED_WRITER(calls, list);
            if let (31, Some(first)) = (answer.0, list.first_mut()) {
                *first ^= 1;
            }
            answer
        });
        assert!(why.contains("word 0 of the list"), "{why}");
        assert!(why.contains("; both answer 31 with 0"), "{why}");
    }

    #[test]
    fn a_writer_that_writes_what_it_is_not_lent_is_found() {
        let why = first_difference(|calls, list| {
            let answer = PROVED_WRITER(calls, list);
            // SAFETY: the words are lent from the middle of a larger space.
            unsafe { *list.as_mut_ptr().add(list.len()) = 0 };
            answer
        });
        assert!(why.contains("outside the words"), "{why}");
    }

    #[test]
    fn a_writer_that_stops_is_reported() {
        let why = first_difference(|_, _| std::process::abort());
        assert!(why.starts_with("STOPPED in list 1 "), "{why}");
    }

    #[test]
    fn a_run_that_reads_otherwise_is_found() {
        let answers = |codes: [u32; 3]| codes.map(|code| [code, 0, 0]).concat();
        // A send, a stray and a receive with A set.
        let list = [0x2000_0100, 0xF000_0005, 0xF000_0006, 0x3001_0000];
        let read = |codes| read_as_answered(PROVED_WRITER, &list, &answers(codes));
        assert_eq!(read([17, 10, 13]), Ok(false));
        assert_eq!(read([12, 10, 12]), Ok(false));
        let why = read([0, 11, 13]).unwrap_err();
        assert_eq!(why, "call 1 is answered with 11 and read as Refused(10)");
        let why = read([14, 10, 13]).unwrap_err();
        assert!(why.contains("call 0 is answered with 14 and read as Send"));
    }

    #[test]
    fn a_list_without_such_calls_is_written_as_it_came() {
        let mut list = LIST_L.to_vec();
        assert_eq!(list.remove(9), 0xF000_0009);
        let done = [0; 3 * 8];
        assert_eq!(read_as_answered(PROVED_WRITER, &list, &done), Ok(true));
        let short = read_as_answered(PROVED_WRITER, &list, &done[1..]);
        assert_eq!(short, Err("8 calls have 23 words of answers".to_string()));
        let cut = |calls: &[u32], list: &mut [u32]| PROVED_WRITER(&calls[5..], list);
        let why = read_as_answered(cut, &list, &done).unwrap_err();
        assert!(why.starts_with("the list is read and written as "), "{why}");
    }
}
