//! One line of progress, on a terminal only: in a pipe or a log nothing is shown.

use std::io::{self, IsTerminal, Write};
use std::ops::Range;
use std::time::{Duration, Instant};

pub struct Progress {
    what: &'static str,
    done: u64,
    of: u64,
    on_terminal: bool,
    shown: Option<Instant>,
}

const EVERY: Duration = Duration::from_millis(200);

impl Progress {
    pub fn new(what: &'static str, numbers: &Range<u64>) -> Progress {
        Progress {
            what,
            done: 0,
            of: numbers.end - numbers.start,
            on_terminal: io::stderr().is_terminal(),
            shown: None,
        }
    }

    /// Shows that one more is done, at once where it is the first.
    pub fn step(&mut self) {
        self.done += 1;
        let lately = self.shown.is_some_and(|shown| shown.elapsed() < EVERY);
        if self.on_terminal && !lately {
            show(&format!("{} of {} {}", self.done, self.of, self.what));
            self.shown = Some(Instant::now());
        }
    }

    /// Takes the line away. What showed it may be a child process, so it is not asked for.
    pub fn clear(&mut self) {
        if self.on_terminal {
            show("");
        }
    }
}

/// Shows what is being done while it is, for what has no steps to count.
pub fn phase<T>(what: &str, act: impl FnOnce() -> T) -> T {
    let on_terminal = io::stderr().is_terminal();
    if on_terminal {
        show(what);
    }
    let done = act();
    if on_terminal {
        show("");
    }
    done
}

/// Shows a line in the place of the last one. Where the terminal has gone nobody sees it.
fn show(line: &str) {
    let mut out = io::stderr();
    let end = if line.is_empty() { "\r" } else { "" };
    let _ = write!(out, "\r{line:60}{end}").and_then(|()| out.flush());
}
