//! Kernels in a child process, with a time limit: one that faults, that loops or that
//! ends the program is reported, and this process goes on.
//!
//! The child is a copy of this process. Before each thing that it tries it writes its
//! number on a board that both see, so that it is known what the kernel stopped at.

use std::ops::Range;
use std::os::unix::process::ExitStatusExt;
use std::process::ExitStatus;
use std::sync::atomic::Ordering::Relaxed;
use std::time::Duration;
use std::{io, thread};

use reference::Call;

use crate::cases::Case;
use crate::kernels::boundary::{Kernel, Outcome, Step};
use crate::kernels::lent::{run_here, step_here, Failure, Forbidden, Ran, Stopped};
use crate::kernels::process::{Child, Shared};

/// How long a kernel may take for one run or one check, of a processor's time: thousands
/// of times what the longest list takes.
pub const LIMIT: Duration = Duration::from_secs(2);

/// So many times as long it may wait, where no processor works on it.
const PATIENCE: u32 = 10;

/// How long the parent sleeps before it looks at the child again, at first and at most.
const LOOK_AGAIN: Duration = Duration::from_micros(50);
const LOOK_AGAIN_AT_LATEST: Duration = Duration::from_millis(2);

/// What a child and its parent both see: the number of what is tried, how it all ended,
/// and words that the child leaves.
pub struct Board(Shared);

const NUMBER: usize = 0;
const ENDED: usize = 1;
const LEFT: usize = 2;

/// What is at [`ENDED`] once the child has done all that it was asked to.
const WITH_FALSE: u64 = 1;
const WITH_TRUE: u64 = 2;

impl Board {
    /// A board for so many words, which are zero until something is left in their place.
    pub fn new(words: usize) -> Board {
        Board(or_give_up(Shared::new(LEFT + words)))
    }

    /// Says what is tried next. The time for it begins.
    pub fn announce(&self, number: u64) {
        self.0[NUMBER].store(number, Relaxed);
    }

    /// The number announced last.
    pub fn announced(&self) -> u64 {
        self.0[NUMBER].load(Relaxed)
    }

    /// Leaves words from a place on, as far as there are places.
    pub fn leave(&self, place: usize, words: impl IntoIterator<Item = u64>) {
        let mut places = self.0[LEFT + place..].iter();
        words.into_iter().for_each(|word| {
            if let Some(place) = places.next() {
                place.store(word, Relaxed);
            }
        });
    }

    pub fn left(&self, places: Range<usize>) -> impl Iterator<Item = u64> + '_ {
        let places = &self.0[LEFT + places.start..LEFT + places.end];
        places.iter().map(|at| at.load(Relaxed))
    }

    /// The text that was left in some places, a byte each.
    pub fn text(&self, places: Range<usize>) -> String {
        let bytes = self.left(places).map(|byte| byte as u8);
        let bytes: Vec<u8> = bytes.take_while(|&byte| byte != 0).collect();
        String::from_utf8_lossy(&bytes).into_owned()
    }
}

/// What `act` gives, done in a child process; or how it stopped, where it took longer
/// than the limit for what was announced last, or never came to its end.
pub fn watch(board: &Board, limit: Duration, act: impl FnOnce() -> bool) -> Result<bool, Stopped> {
    let ended = |with| board.0[ENDED].store(with, Relaxed);
    ended(0);
    let mut child = or_give_up(Child::start(|| {
        ended(if act() { WITH_TRUE } else { WITH_FALSE });
    }));
    let status = end_of(&mut child, board, limit)?;
    match (board.0[ENDED].load(Relaxed), status.code()) {
        (WITH_TRUE, _) => Ok(true),
        (WITH_FALSE, _) => Ok(false),
        (_, Some(status)) => Err(Stopped::Exit(status)),
        (_, None) => Err(Stopped::Fault(status.signal().unwrap_or_default())),
    }
}

/// Waits for a child to end, or to take too long for what it announced last: more of a
/// processor's time than the limit, so that a program that is stopped for a while and a
/// machine that has no time for it are not taken for a loop. One that only waits gets more;
/// of its time the pauses alone are counted.
fn end_of(child: &mut Child, board: &Board, limit: Duration) -> Result<ExitStatus, Stopped> {
    let (mut number, mut before) = (board.announced(), child.processor_time());
    let (mut waited, mut pause) = (Duration::ZERO, LOOK_AGAIN);
    loop {
        if let Some(status) = child.ended() {
            return Ok(status);
        }
        thread::sleep(pause);
        waited += pause;
        pause = (2 * pause).min(LOOK_AGAIN_AT_LATEST);
        let (now, worked) = (board.announced(), child.processor_time());
        if now != number {
            (number, before, waited) = (now, worked, Duration::ZERO);
        } else if worked.saturating_sub(before) > limit || waited > PATIENCE * limit {
            return Err(Stopped::Loop(limit));
        }
    }
}

/// What the system gives, or the end of the program with 2.
fn or_give_up<T>(given: io::Result<T>) -> T {
    given.unwrap_or_else(|why| {
        eprintln!(
            "{}: no child process can be started: {why}",
            crate::program::name()
        );
        std::process::exit(2)
    })
}

/// A kernel's run of a case, in a child process.
pub fn run(kernel: &Kernel, case: &Case, limit: Duration) -> Result<Ran, Failure> {
    only(runs(kernel, &[case], limit))
}

/// A kernel's runs of cases, one after another in one child process. The first that
/// stops is the last: those after it are not run.
pub fn runs(kernel: &Kernel, cases: &[&Case], limit: Duration) -> Vec<Result<Ran, Failure>> {
    runs_by(cases, limit, |case| run_here(kernel, case))
}

/// A step on a table with one call, in a child process.
pub fn step(step: Step, case: &Case, call: &Call, limit: Duration) -> Result<Ran, Failure> {
    only(runs_by(&[case], limit, |case| step_here(step, case, call)))
}

fn only(mut ran: Vec<Result<Ran, Failure>>) -> Result<Ran, Failure> {
    ran.pop().expect("one case has one result")
}

fn runs_by(
    cases: &[&Case],
    limit: Duration,
    run: impl Fn(&Case) -> Result<Ran, Failure>,
) -> Vec<Result<Ran, Failure>> {
    let mut places = Vec::with_capacity(cases.len());
    let mut words = 0;
    for case in cases {
        places.push(words);
        words += HEAD + case.table.len() + case.answers.len() + case.holders.len();
    }
    let board = Board::new(words);
    let watched = watch(&board, limit, || {
        for (number, (case, &place)) in cases.iter().zip(&places).enumerate() {
            board.announce(number as u64);
            leave_run(&board, place, &run(case));
        }
        true
    });
    let ran = cases.iter().zip(&places);
    let ran = ran.map_while(|(case, &place)| left_run(&board, place, case));
    let stopped = watched.err().map(|how| Err(Failure::Stopped(how)));
    ran.chain(stopped).collect()
}

/// The words before the table, the answers and the holders that a run leaves on a board: what it came
/// to, its code and its number of calls.
const HEAD: usize = 3;

/// What a run came to: it ran, or by [`FORBIDDEN`] what it wrote.
const RAN: u64 = 1;
const WROTE: u64 = 2;
const FORBIDDEN: [Forbidden; 5] = [
    Forbidden::List,
    Forbidden::AroundList,
    Forbidden::AroundTable,
    Forbidden::AroundAnswers,
    Forbidden::AroundHolders,
];

fn leave_run(board: &Board, place: usize, ran: &Result<Ran, Failure>) {
    match ran {
        Ok(ran) => {
            let Outcome { code, calls } = ran.outcome;
            let words = ran.table.iter().chain(&ran.answers).chain(&ran.holders);
            let all = [code, calls].into_iter().chain(words.copied());
            board.leave(place + 1, all.map(u64::from));
            board.leave(place, [RAN]);
        }
        Err(Failure::Wrote(forbidden)) => {
            let which = FORBIDDEN.iter().position(|known| known == forbidden);
            let which = which.expect("something that a run is lent");
            board.leave(place, [WROTE + which as u64]);
        }
        // It would have stopped this process.
        Err(Failure::Stopped(_)) => {}
    }
}

/// What a run left; nothing where it never came to that.
fn left_run(board: &Board, place: usize, case: &Case) -> Option<Result<Ran, Failure>> {
    let table = place + HEAD..place + HEAD + case.table.len();
    let answers = table.end..table.end + case.answers.len();
    let holders = answers.end..answers.end + case.holders.len();
    let words = |places| {
        board
            .left(places)
            .map(|word| word as u32)
            .collect::<Vec<u32>>()
    };
    match board.left(place..place + 1).next()? {
        0 => None,
        RAN => {
            let outcome = words(place + 1..place + HEAD);
            Some(Ok(Ran {
                outcome: Outcome {
                    code: outcome[0],
                    calls: outcome[1],
                },
                table: words(table),
                answers: words(answers),
                holders: words(holders),
            }))
        }
        wrote => {
            let forbidden = FORBIDDEN[(wrote - WROTE) as usize];
            Some(Err(Failure::Wrote(forbidden)))
        }
    }
}

/// A kernel's checks of table images, one after another in one child process. The first
/// that stops is the last: those after it are not checked.
pub fn checks(kernel: &Kernel, images: &[&[u8]], limit: Duration) -> Vec<Result<u32, Stopped>> {
    let board = Board::new(images.len());
    let watched = watch(&board, limit, || {
        for (number, image) in images.iter().enumerate() {
            board.announce(number as u64);
            // One more than the code, since 0 is where nothing was left.
            board.leave(number, [1 + u64::from(kernel.table_check(image))]);
        }
        true
    });
    let codes = board.left(0..images.len());
    let codes = codes.map_while(|left| Some(left.checked_sub(1)? as u32));
    codes.map(Ok).chain(watched.err().map(Err)).collect()
}

#[cfg(test)]
mod tests {
    use super::*;
    use crate::judging::variants::case_of;
    use crate::kernels::boundary::PROVED;
    use crate::kernels::faulty;
    use crate::text::input::Input;
    use reference::example::TABLE_T;
    use reference::words::to_bytes;

    const SOON: Duration = Duration::from_millis(300);

    /// The worked example, which has a grant, and the same without calls.
    fn cases() -> [Case; 2] {
        let without = Input {
            list: vec![],
            ..Input::example()
        };
        [case_of(&Input::example()), case_of(&without)]
    }

    #[test]
    fn a_run_in_a_child_is_the_run() {
        for case in &cases() {
            assert_eq!(run(&PROVED, case, LIMIT), run_here(&PROVED, case));
        }
        let refused = Case {
            table: vec![],
            ..cases()[0].clone()
        };
        let ran = run(&PROVED, &refused, LIMIT).unwrap();
        assert_eq!((ran.outcome.code, ran.answers), (2, refused.answers));
        assert_eq!(ran.holders, refused.holders);
    }

    #[test]
    fn words_that_are_not_lent_are_watched_in_a_child_too() {
        let wrote = |kernel| run(&kernel, &cases()[0], LIMIT).unwrap_err();
        let list = wrote(faulty::WRITES_LIST);
        assert_eq!(list, Failure::Wrote(Forbidden::List));
        let outside = wrote(faulty::WRITES_OUTSIDE);
        assert_eq!(outside, Failure::Wrote(Forbidden::AroundAnswers));
    }

    #[test]
    fn a_kernel_that_stops_is_reported() {
        let stopped = |kernel| run(&kernel, &cases()[0], SOON).unwrap_err().to_string();
        let fault = stopped(faulty::FAULTS_AT_A_GRANT);
        assert_eq!(
            fault,
            "the kernel was ended by signal 11 (segmentation fault)"
        );
        let endless = stopped(faulty::LOOPS_AT_A_GRANT);
        assert_eq!(endless, "the kernel had not returned after 0.3 s");
        let exit = stopped(faulty::EXITS_AT_A_GRANT);
        assert_eq!(exit, "the kernel ended the program, with status 0");
    }

    #[test]
    fn runs_end_with_the_first_that_stops() {
        let [stops, runs_on] = &cases();
        let all = [runs_on, runs_on, stops, runs_on];
        assert_eq!(runs(&PROVED, &all, LIMIT).len(), 4);
        let ran = runs(&faulty::FAULTS_AT_A_GRANT, &all, LIMIT);
        assert_eq!(ran[..2], [(); 2].map(|()| run_here(&PROVED, runs_on)));
        let fault = Err(Failure::Stopped(Stopped::Fault(11)));
        assert_eq!(ran[2..], [fault]);
    }

    /// A kernel that waits twice as long as it may work, and one that waits for ever.
    const LITTLE: Duration = Duration::from_millis(100);
    const WAITS: Kernel = PROVED.with_run("waits", |_, _, _, _| {
        thread::sleep(2 * LITTLE);
        0
    });
    const SLEEPS: Kernel = PROVED.with_run("sleeps", |_, _, _, _| loop {
        thread::sleep(SOON);
    });

    #[test]
    fn a_kernel_that_no_processor_works_on_is_waited_for_and_not_for_ever() {
        let case = &cases()[1];
        assert!(run(&WAITS, case, LITTLE).is_ok());
        let asleep = run(&SLEEPS, case, LITTLE).unwrap_err();
        assert_eq!(asleep, Failure::Stopped(Stopped::Loop(LITTLE)));
    }

    #[test]
    fn each_run_has_the_whole_time() {
        let count = PATIENCE as usize / 2 + 1;
        let ran = runs(&WAITS, &vec![&cases()[1]; count], LITTLE);
        assert_eq!(ran.len(), count);
        assert!(ran.iter().all(Result::is_ok), "{ran:?}");
    }

    #[test]
    fn checks_end_with_the_first_that_stops() {
        let image = &to_bytes(&TABLE_T)[..];
        let all = [image, &image[..1], image];
        assert_eq!(checks(&PROVED, &all, LIMIT), [Ok(0), Ok(2), Ok(0)]);
        let stopped = checks(&faulty::CHECK_FAULTS, &all, LIMIT);
        assert_eq!(stopped, [Ok(0), Err(Stopped::Fault(11))]);
    }

    #[test]
    fn what_was_announced_last_is_known() {
        let board = Board::new(1);
        let watched = watch(&board, SOON, || {
            board.announce(7);
            board.leave(0, [5]);
            std::process::abort()
        });
        assert_eq!(watched, Err(Stopped::Fault(6)));
        assert_eq!(board.announced(), 7);
        assert_eq!(board.left(0..1).collect::<Vec<_>>(), [5]);
        assert_eq!(watch(&board, SOON, || false), Ok(false));
    }
}
