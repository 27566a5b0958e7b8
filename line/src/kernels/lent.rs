//! A run of a kernel on a case: the words that it is lent, what it returns and leaves of
//! them, and what it does where it doesn't come to that.

use std::fmt::{self, Display};
use std::io;
use std::time::Duration;

use reference::calls::cut;
use reference::entry::ANSWER_WORDS;
use reference::table::domains;
use reference::words::bits;
use reference::Call;

use crate::cases::Case;
use crate::kernels::boundary::{Kernel, Outcome, Step};
use crate::kernels::process::{signal_in_words, Guarded};

/// What a run returned and left.
#[derive(Debug, Clone, PartialEq, Eq)]
pub struct Ran {
    pub outcome: Outcome,
    pub table: Vec<u32>,
    pub answers: Vec<u32>,
    pub holders: Vec<u32>,
}

/// What a kernel did where there is no run to compare.
#[derive(Debug, Clone, Copy, PartialEq, Eq)]
pub enum Failure {
    Stopped(Stopped),
    Wrote(Forbidden),
}

/// A kernel that never returned.
#[derive(Debug, Clone, Copy, PartialEq, Eq)]
pub enum Stopped {
    /// It was ended by this signal.
    Fault(i32),
    /// It was still at it after so long.
    Loop(Duration),
    /// It ended the whole program, with this status.
    Exit(i32),
}

/// Words that a kernel isn't lent to be written.
#[derive(Debug, Clone, Copy, PartialEq, Eq)]
pub enum Forbidden {
    List,
    Table,
    HandedIn,
    AroundList,
    AroundTable,
    AroundAnswers,
    AroundHolders,
    AroundState,
    AroundWords,
}

impl Display for Failure {
    fn fmt(&self, to: &mut fmt::Formatter) -> fmt::Result {
        match self {
            Failure::Stopped(stopped) => stopped.fmt(to),
            Failure::Wrote(forbidden) => forbidden.fmt(to),
        }
    }
}

impl Display for Stopped {
    fn fmt(&self, to: &mut fmt::Formatter) -> fmt::Result {
        match self {
            Stopped::Fault(signal) => {
                write!(to, "the kernel was ended by {}", signal_in_words(*signal))
            }
            Stopped::Loop(limit) => {
                let seconds = limit.as_secs_f64();
                write!(to, "the kernel had not returned after {seconds} s")
            }
            Stopped::Exit(status) => {
                write!(to, "the kernel ended the program, with status {status}")
            }
        }
    }
}

impl Display for Forbidden {
    fn fmt(&self, to: &mut fmt::Formatter) -> fmt::Result {
        let what = match self {
            Forbidden::List => return write!(to, "the kernel wrote the list"),
            Forbidden::Table => return write!(to, "the kernel wrote a table that it only reads"),
            Forbidden::HandedIn => return write!(to, "the kernel wrote the words handed in"),
            Forbidden::AroundList => "list",
            Forbidden::AroundTable => "table",
            Forbidden::AroundAnswers => "answer space",
            Forbidden::AroundHolders => "holders' words",
            Forbidden::AroundState => "state of the turns",
            Forbidden::AroundWords => "words",
        };
        write!(to, "the kernel wrote outside the {what} it was lent")
    }
}

impl From<Failure> for String {
    fn from(failure: Failure) -> String {
        failure.to_string()
    }
}

/// Words lent from the middle of a larger space, with words around them that
/// nobody was lent.
pub struct Fenced {
    words: Vec<u32>,
    end: usize,
}

/// What is after lent words, and before them: a second word, and a first word that
/// takes one, so that a kernel which reads past a list's end joins what it should not.
pub const OUTSIDE: u32 = 0xF5A5_5A5A;
const AFTER: [u32; 4] = [OUTSIDE; 4];
const BEFORE: [u32; 4] = [0x25A5_5A5A; 4];

impl Fenced {
    pub fn new(lent: &[u32]) -> Fenced {
        Fenced {
            words: [&BEFORE, lent, &AFTER].concat(),
            end: BEFORE.len() + lent.len(),
        }
    }

    pub fn lent(&mut self) -> &mut [u32] {
        &mut self.words[BEFORE.len()..self.end]
    }

    /// Nothing, where words that are lent to be read are still the same, and the words
    /// around them too.
    pub fn unwritten(
        self,
        lent: &[u32],
        what: Forbidden,
        around: Forbidden,
    ) -> Result<(), Failure> {
        match self.words(around)? == lent {
            true => Ok(()),
            false => Err(Failure::Wrote(what)),
        }
    }

    /// The lent words as they were left, unless a word around them was written.
    pub fn words(mut self, around: Forbidden) -> Result<Vec<u32>, Failure> {
        if self.words[..BEFORE.len()] != BEFORE || self.words[self.end..] != AFTER {
            return Err(Failure::Wrote(around));
        }
        self.words.truncate(self.end);
        self.words.drain(..BEFORE.len());
        Ok(self.words)
    }
}

/// What a function answers and leaves of words that it is lent, in this process.
pub fn words_here<T>(
    words: &[u32],
    act: impl FnOnce(&mut [u32]) -> T,
) -> Result<(T, Vec<u32>), Failure> {
    let mut lent = Fenced::new(words);
    let answer = act(lent.lent());
    Ok((answer, lent.words(Forbidden::AroundWords)?))
}

/// A kernel's run of a case in this process, which ends with the kernel if that stops.
pub fn run_here(kernel: &Kernel, case: &Case) -> Result<Ran, Failure> {
    let mut table = Fenced::new(&case.table);
    let mut list = Fenced::new(&case.list);
    let mut answers = Fenced::new(&case.answers);
    let mut holders = Fenced::new(&case.holders);
    let outcome = kernel.run(table.lent(), list.lent(), answers.lent(), holders.lent());
    list.unwritten(&case.list, Forbidden::List, Forbidden::AroundList)?;
    Ok(Ran {
        outcome,
        table: table.words(Forbidden::AroundTable)?,
        answers: answers.words(Forbidden::AroundAnswers)?,
        holders: holders.words(Forbidden::AroundHolders)?,
    })
}

/// Spaces at whose ends nothing may be read or written, used again for each run: a kernel
/// that reads past what it is lent stops there.
pub struct Edges {
    table: Guarded,
    list: Guarded,
    answers: Guarded,
    holders: Guarded,
}

/// So many words each of these spaces has.
const EDGE_WORDS: usize = 1 << 19;

impl Edges {
    pub fn new() -> io::Result<Edges> {
        Ok(Edges {
            table: Guarded::new(EDGE_WORDS)?,
            list: Guarded::new(EDGE_WORDS)?,
            answers: Guarded::new(EDGE_WORDS)?,
            holders: Guarded::new(EDGE_WORDS)?,
        })
    }

    /// A kernel's run of a case with all that is lent at the end of its space, in this
    /// process; as [`run_here`] has it where something is longer than that.
    pub fn run(&mut self, kernel: &Kernel, case: &Case) -> Result<Ran, Failure> {
        let spaces = (
            placed(&mut self.table, &case.table),
            placed(&mut self.list, &case.list),
            placed(&mut self.answers, &case.answers),
            placed(&mut self.holders, &case.holders),
        );
        let (Some(table), Some(list), Some(answers), Some(holders)) = spaces else {
            return run_here(kernel, case);
        };
        let from = BEFORE.len();
        let outcome = kernel.run(
            &mut table[from..],
            &list[from..],
            &mut answers[from..],
            &mut holders[from..],
        );
        if left_of(list, Forbidden::AroundList)? != case.list {
            return Err(Failure::Wrote(Forbidden::List));
        }
        Ok(Ran {
            outcome,
            table: left_of(table, Forbidden::AroundTable)?,
            answers: left_of(answers, Forbidden::AroundAnswers)?,
            holders: left_of(holders, Forbidden::AroundHolders)?,
        })
    }

    /// A kernel's check of an image that ends where nothing may be read; of one that is too
    /// long for that, as it is.
    pub fn check(&mut self, kernel: &Kernel, image: &[u8]) -> u32 {
        match self.table.last_bytes(image.len()) {
            Some(space) => {
                space.copy_from_slice(image);
                kernel.table_check(space)
            }
            None => kernel.table_check(image),
        }
    }
}

/// Words at the end of a space, with words before them that nobody was lent.
fn placed<'a>(space: &'a mut Guarded, lent: &[u32]) -> Option<&'a mut [u32]> {
    let words = space.last(BEFORE.len() + lent.len())?;
    words[..BEFORE.len()].copy_from_slice(&BEFORE);
    words[BEFORE.len()..].copy_from_slice(lent);
    Some(words)
}

/// What was left of them, unless a word before them was written.
fn left_of(words: &[u32], around: Forbidden) -> Result<Vec<u32>, Failure> {
    let (before, lent) = words.split_at(BEFORE.len());
    match before == BEFORE {
        true => Ok(lent.to_vec()),
        false => Err(Failure::Wrote(around)),
    }
}

/// A step on a table with one call, in this process.
pub fn step_here(step: Step, case: &Case, call: &Call) -> Result<Ran, Failure> {
    let mut table = Fenced::new(&case.table);
    let mut answers = Fenced::new(&case.answers);
    let mut holders = Fenced::new(&case.holders);
    let code = step(table.lent(), call, answers.lent(), holders.lent());
    Ok(Ran {
        outcome: Outcome { code, calls: 1 },
        table: table.words(Forbidden::AroundTable)?,
        answers: answers.words(Forbidden::AroundAnswers)?,
        holders: holders.words(Forbidden::AroundHolders)?,
    })
}

/// The table that a kernel leaves of a list, lent as much as it needs; an error where it
/// refuses the list.
pub fn table_left(kernel: &Kernel, table: &[u32], list: &[u32]) -> Result<Vec<u32>, String> {
    left_and_answers(kernel, table, list).map(|(left, _)| left)
}

/// Whether a kernel does each call of a list; an error where it refuses the list.
pub fn all_done(kernel: &Kernel, table: &[u32], list: &[u32]) -> Result<bool, String> {
    let (_, answers) = left_and_answers(kernel, table, list)?;
    let done = |answer: &[u32]| bits(answer[0], 15, 0) == 0;
    Ok(answers.chunks_exact(ANSWER_WORDS).all(done))
}

fn left_and_answers(
    kernel: &Kernel,
    table: &[u32],
    list: &[u32],
) -> Result<(Vec<u32>, Vec<u32>), String> {
    let mut left = table.to_vec();
    let mut answers = vec![0; ANSWER_WORDS * cut(list).len()];
    let mut holders = vec![0; domains(table)];
    match kernel.run(&mut left, list, &mut answers, &mut holders).code {
        0 => Ok((left, answers)),
        code => Err(format!("the kernel refuses a list with {code}")),
    }
}
