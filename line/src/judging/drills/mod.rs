//! The drills: what the checklist goes through beyond the lists that are made from the
//! line's table. A drill is a finite set that is gone through whole: the fields of a call
//! at their edges in every combination, every bit of every field, every state of a queue,
//! every overlap of rights, sizes around each limit. It is gone through on the line's table
//! and on tables of the checklist's own, so that it shows everything whatever the line's
//! table allows.
//!
//! Each case is one run; three of four have what is lent at the edge of memory, so that a
//! read past it shows, the fourth amid words that must stay. After it the code, the number of
//! calls and every word of the table, the answers and the holders are compared with the reference's. All cases
//! run in one child process, so that what a kernel keeps between runs shows too.

mod after;
mod alike;
mod bits;
mod ends;
mod entries;
mod far;
mod images;
mod names;
mod neighbours;
pub mod orders;
mod queues;
mod rights;
mod runs;
mod sizes;
pub mod tables;
mod unused;
mod walks;

use crate::cases::Case;
use crate::judging::compare::{difference, refusal_difference, separate_run};
use crate::judging::report::{self, cut_down, Cut};
use crate::kernels::boundary::Kernel;
use crate::kernels::child::{self, watch, Board};
use crate::kernels::lent::{run_here, Edges, Failure, Stopped};
use crate::progress::Progress;

use far::Far;
use images::Image;
use tables::family;

/// What a kernel is given: a run, after which the table's image is checked too; a run that
/// another one follows at once; an image alone; or a run with a part that is far too long.
#[derive(Clone)]
pub enum Given {
    Run(Case),
    Next(Case),
    Image(Image),
    Far(Far),
}

/// Takes what is given, one after another.
type Take<'a> = dyn FnMut(Given) + 'a;

/// A drill: what it goes through, and its cases on the line's table and on the family.
pub struct Drill {
    pub what: &'static str,
    cases: fn(&Tables, &mut Take),
}

const fn drill(what: &'static str, cases: fn(&Tables, &mut Take)) -> Drill {
    Drill { what, cases }
}

/// The line's table, and those of the checklist's own.
pub struct Tables {
    pub line: Vec<u32>,
    pub own: Vec<Vec<u32>>,
}

impl Tables {
    pub fn with(line: &[u32]) -> Tables {
        Tables {
            line: line.to_vec(),
            own: family(),
        }
    }

    /// The line's table first.
    fn all(&self) -> impl Iterator<Item = &[u32]> {
        let own = self.own.iter().map(Vec::as_slice);
        std::iter::once(&self.line[..]).chain(own)
    }

    /// The line's table, the smallest of the others and the largest.
    fn few(&self) -> impl Iterator<Item = &[u32]> {
        let (least, most) = (self.own.first(), self.own.last());
        let own = least.into_iter().chain(most).map(Vec::as_slice);
        std::iter::once(&self.line[..]).chain(own)
    }
}

/// All drills, in the order in which they are gone through: those with long lists, which take
/// longest, at the end.
pub const DRILLS: [Drill; 17] = [
    drill(
        "the fields of calls at their edges in every combination",
        orders::calls,
    ),
    drill("every bit of calls that are done", bits::calls),
    drill("every bit of every table word", bits::tables),
    drill(
        "headers, owners, capacities and waiting counts of every number",
        bits::numbers,
    ),
    drill(
        "table words damaged alike, two or more at once",
        alike::alike,
    ),
    drill("images of every length", images::images),
    drill(
        "names at every endpoint, near each other and repeated",
        names::names,
    ),
    drill("queues in every state", queues::queues),
    drill(
        "rights in every state, held in part, on oneself and on others",
        rights::rights,
    ),
    drill(
        "answer spaces that are short, for lists of every kind of word",
        ends::ends,
    ),
    drill(
        "unused fields of every two numbers, and every two bits of calls that are done",
        unused::unused,
    ),
    drill(
        "calls of small numbers, each after each",
        neighbours::neighbours,
    ),
    drill(
        "a list of each kind after each refusal of the entry and after each other",
        after::after,
    ),
    drill(
        "lists of calls that are done, after every call",
        walks::walks,
    ),
    drill(
        "short lists over tables of different sizes",
        runs::one_after_another,
    ),
    drill("sizes around each limit", sizes::sizes),
    drill(
        "refusals of the entry in every combination",
        entries::entries,
    ),
];

/// What the drills came to.
pub struct Drilled {
    /// How many cases each had, as far as they were gone through.
    pub cases: Vec<u64>,
    pub wrong: Option<Wrong>,
}

/// The first case with which something is wrong.
pub struct Wrong {
    /// What is wrong with a refusal, where something is.
    pub refusal: Option<String>,
    /// The first word that is wrong.
    pub word: String,
}

/// Of four cases, the one that is lent amid words that must stay.
const AMID: u64 = 3;

/// The most bytes that are reported of what is wrong.
const REPORTED_MAX: usize = 16_384;

/// Where the text of a refusal and that of a word are left, after the counts.
const REFUSAL: usize = DRILLS.len();
const WORD: usize = REFUSAL + REPORTED_MAX;

/// Goes through all drills with a kernel, up to the first case with which something is
/// wrong.
pub fn go_through(kernel: &Kernel, line: &[u32]) -> Drilled {
    let tables = Tables::with(line);
    let board = Board::new(WORD + REPORTED_MAX);
    let mut progress = Progress::new("drills", &(0..DRILLS.len() as u64));
    let watched = watch(&board, child::LIMIT, || {
        let mut trial = Trial {
            kernel,
            board: &board,
            edges: Edges::new().expect("memory for what is lent"),
            number: 0,
        };
        (0..DRILLS.len()).all(|place| {
            progress.step();
            trial.one_drill(&tables, place)
        })
    });
    progress.clear();
    let cases = board.left(0..DRILLS.len()).collect();
    let wrong = match watched {
        Ok(true) => None,
        Ok(false) => Some(differs(kernel, &tables, &board)),
        Err(stopped) => Some(stops(kernel, &tables, &board, stopped)),
    };
    Drilled { cases, wrong }
}

/// The child process that goes through the drills.
struct Trial<'a> {
    kernel: &'a Kernel,
    board: &'a Board,
    edges: Edges,
    /// The number of the next case.
    number: u64,
}

impl Trial<'_> {
    /// Goes through one drill; whether nothing is wrong. By turns what is lent has words
    /// around it or ends where nothing may be read.
    fn one_drill(&mut self, tables: &Tables, place: usize) -> bool {
        let (mut count, mut right) = (0, true);
        (DRILLS[place].cases)(tables, &mut |given| {
            if !right {
                return;
            }
            self.board.announce(self.number);
            count += 1;
            let wrong = self.wrong_with(&given);
            self.number += 1;
            if let Some(wrong) = wrong {
                self.leave(REFUSAL, &wrong.refusal.unwrap_or_default());
                self.leave(WORD, &wrong.word);
                right = false;
            }
        });
        self.board.leave(place, [count]);
        right
    }

    fn leave(&self, place: usize, text: &str) {
        let bytes = text.bytes().take(REPORTED_MAX - 1);
        self.board.leave(place, bytes.map(u64::from));
    }

    /// What is wrong with what the kernel makes of what it is given.
    fn wrong_with(&mut self, given: &Given) -> Option<Wrong> {
        let kernel = self.kernel;
        match given {
            Given::Run(case) => match self.run(case) {
                Err(wrong) => Some(wrong),
                Ok(code) => Image::of_run(case, code).difference(kernel).map(in_both),
            },
            Given::Next(case) => self.run(case).err(),
            Given::Image(image) => image
                .difference(kernel)
                .or_else(|| image.difference_at_the_edge(kernel, &mut self.edges))
                .map(in_both),
            Given::Far(far) => far.difference(kernel).map(in_both),
        }
    }

    /// What the kernel's run of a case ends with, or what is wrong with it.
    fn run(&mut self, case: &Case) -> Result<u32, Wrong> {
        let ran = match self.number % 4 {
            AMID => run_here(self.kernel, case),
            _ => self.edges.run(self.kernel, case),
        };
        let ran = ran.map_err(failed)?;
        let alone = |word| Wrong {
            refusal: None,
            word,
        };
        let right = separate_run(case).map_err(alone)?;
        match difference(case, &ran, &right) {
            None => Ok(ran.outcome.code),
            Some(word) => Err(Wrong {
                refusal: refusal_difference(case, &ran, &right),
                word,
            }),
        }
    }
}

/// What is wrong with a refusal and with a word alike.
fn in_both(why: String) -> Wrong {
    Wrong {
        refusal: Some(why.clone()),
        word: why,
    }
}

fn failed(failure: Failure) -> Wrong {
    in_both(failure.to_string())
}

/// The drill that the last case announced is of, which of its cases that is, and what it
/// gives. The drills before it have left how many they have, so that none is gone through
/// again but this one.
fn last_given(tables: &Tables, board: &Board) -> (&'static str, u64, Given) {
    let mut number = board.announced();
    for (drill, count) in DRILLS.iter().zip(board.left(0..DRILLS.len())) {
        if count > 0 && number >= count {
            number -= count;
            continue;
        }
        let (mut place, mut found) = (0, None);
        (drill.cases)(tables, &mut |given| {
            if place == number {
                found = Some(given);
            }
            place += 1;
        });
        return (drill.what, number, found.expect("it was announced"));
    }
    unreachable!("a drill announced the number")
}

/// What is reported of the case that differs, with its words cut down.
fn differs(kernel: &Kernel, tables: &Tables, board: &Board) -> Wrong {
    let (what, number, given) = last_given(tables, board);
    let shown = match given {
        Given::Run(case) | Given::Next(case) => shorter(kernel, &case),
        Given::Image(image) => image.in_words(),
        Given::Far(far) => far.in_words(),
    };
    let reported = |why: String| format!("{what}, case {number}: {why}\n{shown}");
    let refusal = Some(board.text(REFUSAL..WORD)).filter(|text| !text.is_empty());
    Wrong {
        refusal: refusal.map(reported),
        word: reported(board.text(WORD..WORD + REPORTED_MAX)),
    }
}

/// A run with which something is wrong, cut down.
fn shorter(kernel: &Kernel, case: &Case) -> String {
    let wrong = |case: &Case, limit| match child::run(kernel, case, limit) {
        Err(failure) => Some(failure.to_string()),
        Ok(ran) => match separate_run(case) {
            Ok(right) => difference(case, &ran, &right),
            Err(why) => Some(why),
        },
    };
    let shorter = cut_down(case, Cut::Calls, child::LIMIT, wrong);
    shorter.unwrap_or_else(|| {
        "Only after the runs before it in one process: alone this run is right.".to_string()
    })
}

/// The same of a case that the kernel stops at.
fn stops(kernel: &Kernel, tables: &Tables, board: &Board, stopped: Stopped) -> Wrong {
    let (what, number, given) = last_given(tables, board);
    let why = match given {
        Given::Run(case) | Given::Next(case) => {
            report::failed(kernel, &case, Failure::Stopped(stopped), child::LIMIT)
        }
        Given::Image(image) => format!("{stopped}\n{}", image.in_words()),
        Given::Far(far) => format!("{stopped}\n{}", far.in_words()),
    };
    let at = match board.announced() % 4 {
        AMID => "",
        _ => ", with nothing to be read past what is lent",
    };
    in_both(format!("{what}, case {number}{at}: {why}"))
}

#[cfg(test)]
mod tests {
    use super::*;
    use crate::kernels::boundary::{Kernel, PROVED};
    use crate::kernels::faulty;
    use reference::example::TABLE_T;

    fn wrong(kernel: Kernel) -> Wrong {
        let drilled = go_through(&kernel, &TABLE_T);
        drilled
            .wrong
            .unwrap_or_else(|| panic!("{} passes", kernel.name))
    }

    #[test]
    fn a_right_kernel_goes_through_all_drills() {
        let drilled = go_through(&PROVED, &TABLE_T);
        assert_eq!(drilled.wrong.map(|wrong| wrong.word), None);
        let cases = drilled.cases;
        assert!(cases.iter().all(|&cases| cases > 1000), "{cases:?}");
        assert!(cases.iter().any(|&cases| cases > 100_000), "{cases:?}");
    }

    #[test]
    fn what_differs_is_cut_down() {
        let answer = wrong(faulty::WRONG_ANSWER);
        assert!(
            answer.word.contains("in every combination, case 0: "),
            "{}",
            answer.word
        );
        assert!(
            answer.word.contains("Cut down to 1 call:"),
            "{}",
            answer.word
        );
    }

    #[test]
    fn a_read_past_what_is_lent_stops_the_kernel() {
        let reads = PROVED.with_run("reads on", |table, list, answers, holders| unsafe {
            let next = list.cast::<u32>().add(list.len());
            std::hint::black_box(next.read_volatile());
            let outcome = PROVED.run(&mut *table, &*list, &mut *answers, &mut *holders);
            outcome.calls << 16 | outcome.code
        });
        let stopped = wrong(reads).refusal.unwrap();
        assert!(
            stopped.contains("with nothing to be read past what is lent"),
            "{stopped}"
        );
        assert!(
            stopped.contains("signal 11 (segmentation fault)"),
            "{stopped}"
        );
    }
}
