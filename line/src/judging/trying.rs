//! Random things tried by their numbers, one after another in a child process, up to the
//! first that is wrong or that the kernel stops at; and what was met on the way.

use std::ops::{Range, RangeInclusive};
use std::time::Duration;

use crate::kernels::child::{watch, Board};
use crate::progress::Progress;
use crate::text::explain::meaning;

/// The most bytes that are reported of what is wrong.
const WHY_MAX: usize = 65_536;

/// What is drawn: from a seed, by numbers; and how long each of them may take.
#[derive(Debug, Clone)]
pub struct Draws {
    pub seed: u64,
    pub numbers: Range<u64>,
    pub limit: Duration,
}

impl Draws {
    pub fn count(&self) -> u64 {
        self.numbers.end - self.numbers.start
    }
}

/// What was met on the way and how often, by names. What was never met was never compared.
#[derive(Debug, Clone, Default, PartialEq, Eq)]
pub struct Met(Vec<Row>);

#[derive(Debug, Clone, PartialEq, Eq)]
struct Row {
    name: &'static str,
    /// One of several things of the name: a code, or a size.
    code: Option<u32>,
    text: String,
    /// What the count must come to.
    least: u64,
    count: u64,
}

impl Met {
    /// Things that must be met.
    pub fn of(names: &[&'static str]) -> Met {
        Met::default().with(names.iter().map(|&name| (name, None, name.to_string(), 1)))
    }

    /// Codes that must be met, each with what it means.
    pub fn codes(name: &'static str, codes: impl IntoIterator<Item = u32>) -> Met {
        let text = |code| format!("{name} {code}: {}", meaning(code));
        let codes = codes.into_iter();
        Met::default().with(codes.map(|code| (name, Some(code), text(code), 1)))
    }

    /// Sizes, for each of which a count must come to so much.
    pub fn sizes(name: &'static str, sizes: RangeInclusive<u32>, least: fn(u32) -> u64) -> Met {
        let text = |size| format!("{name} {size}");
        Met::default().with(sizes.map(|size| (name, Some(size), text(size), least(size))))
    }

    /// These things and then those.
    pub fn and(mut self, mut other: Met) -> Met {
        self.0.append(&mut other.0);
        self
    }

    fn with(mut self, rows: impl Iterator<Item = (&'static str, Option<u32>, String, u64)>) -> Met {
        self.0.extend(rows.map(|(name, code, text, least)| Row {
            name,
            code,
            text,
            least,
            count: 0,
        }));
        self
    }

    fn row(&mut self, name: &str, code: Option<u32>) -> Option<&mut u64> {
        let mut rows = self.0.iter_mut();
        let row = rows.find(|row| row.code == code && row.name == name);
        row.map(|row| &mut row.count)
    }

    fn named(&mut self, name: &str) -> &mut u64 {
        self.row(name, None).unwrap_or_else(|| panic!("no {name}"))
    }

    /// Counts something so many times more.
    pub fn add(&mut self, name: &str, count: impl Into<u64>) {
        *self.named(name) += count.into();
    }

    /// Counts a code so many times more, where it is one that must be met.
    pub fn add_code(&mut self, name: &str, code: u32, count: u64) {
        if let Some(all) = self.row(name, Some(code)) {
            *all += count;
        }
    }

    /// Keeps the most that was met of a size.
    pub fn most(&mut self, name: &str, size: u32, count: u64) {
        if let Some(most) = self.row(name, Some(size)) {
            *most = count.max(*most);
        }
    }

    /// How often something was met.
    #[cfg(test)]
    pub fn count(&mut self, name: &str) -> u64 {
        *self.named(name)
    }

    /// What was never met, or too little of it.
    pub fn missing(&self) -> Vec<String> {
        let unmet = self.0.iter().filter(|row| row.count < row.least);
        unmet.map(|row| row.text.clone()).collect()
    }

    /// What was met, a line each.
    pub fn in_words(&self) -> String {
        let line = |row: &Row| format!("{:>12}  {}\n", row.count, row.text);
        self.0.iter().map(line).collect()
    }
}

/// The first thing that is wrong.
#[derive(Debug, Clone, PartialEq, Eq)]
pub struct Found {
    pub number: u64,
    pub why: String,
    /// Whether the kernel stopped there, where others return and differ.
    pub stopped: bool,
}

impl Found {
    /// What a report begins with: where the thing came from, and what is wrong with it.
    pub fn head(&self, what: &str, draws: &Draws) -> String {
        let title = match self.stopped {
            true => "STOPPED",
            false => "DIFFERENCE",
        };
        let (number, seed, why) = (self.number, draws.seed, &self.why);
        format!("{title} in {what} {number} of seed {seed}:\n  {why}\n")
    }

    /// By which line it is seen again: alone, or after those before it where it is right alone.
    /// The option at the line's end says how many are tried.
    pub fn again(&self, line: &str, option: &str, draws: &Draws, alone: bool) -> String {
        let (first, seed) = (draws.numbers.start, draws.seed);
        let (note, from, count) = match alone {
            true => ("", self.number, 1),
            false => (ONLY_AFTER, first, self.number - first + 1),
        };
        format!(
            "{note}To see it again: bench {line} --seed {seed} --from {from} {option} {count}\n"
        )
    }

    /// A whole report, of a function that keeps nothing.
    pub fn report(&self, what: &str, line: &str, draws: &Draws) -> String {
        self.head(what, draws) + self.again(line, "--cases", draws, true).trim_end()
    }
}

/// What is said of something that is right where nothing is tried before it.
const ONLY_AFTER: &str = "Only after those before it: alone it is right.\n";

/// Tries `one` on each number in a child process. What it counts is counted here too, where
/// nothing is wrong.
pub fn try_all(
    what: &'static str,
    draws: &Draws,
    met: &mut Met,
    mut one: impl FnMut(u64, &mut Met) -> Result<(), String>,
) -> Result<(), Found> {
    let words = met.0.len();
    let board = Board::new(words + WHY_MAX);
    let mut progress = Progress::new(what, &draws.numbers);
    let watched = watch(&board, draws.limit, || {
        let right = draws.numbers.clone().all(|number| {
            board.announce(number);
            let tried = one(number, met);
            progress.step();
            tried
                .map_err(|why| board.leave(words, why.bytes().map(u64::from)))
                .is_ok()
        });
        board.leave(0, met.0.iter().map(|row| row.count));
        right
    });
    progress.clear();
    let why = match watched {
        Ok(true) => {
            let counts = board.left(0..words);
            met.0
                .iter_mut()
                .zip(counts)
                .for_each(|(row, count)| row.count = count);
            return Ok(());
        }
        Ok(false) => board.text(words..words + WHY_MAX),
        Err(stopped) => stopped.to_string(),
    };
    Err(Found {
        number: board.announced(),
        why,
        stopped: watched.is_err(),
    })
}

#[cfg(test)]
mod tests {
    use super::*;
    use crate::trial::draws;

    /// Adds up numbers and tries something else with each.
    fn tried(one: impl Fn(u64) -> Result<(), String>) -> (u64, Result<(), Found>) {
        let mut met = Met::of(&["sum"]);
        met.add("sum", 100u64);
        let found = try_all("numbers", &draws(1..5), &mut met, |number, met| {
            met.add("sum", number);
            one(number)
        });
        (met.count("sum"), found)
    }

    #[test]
    fn all_is_counted_and_the_first_that_is_wrong_ends_it() {
        assert_eq!(tried(|_| Ok(())), (110, Ok(())));
        let (_, found) = tried(|number| match number {
            3.. => Err(format!("{number} is wrong: é")),
            _ => Ok(()),
        });
        let found = found.unwrap_err();
        let head = "DIFFERENCE in case 3 of seed 1:\n  3 is wrong: é\n";
        assert_eq!(found.head("case", &draws(1..5)), head);
        let after = found.again("step", "--cases", &draws(1..5), false);
        assert!(after.ends_with(": bench step --seed 1 --from 1 --cases 3\n"));
    }

    #[test]
    fn what_stops_is_known_by_its_number() {
        let ways: [(fn(), &str); 2] = [
            (|| std::process::abort(), "ended by signal 6 (aborted)"),
            (|| loop {}, "not returned after 0.5 s"),
        ];
        for (stop, why) in ways {
            let (_, found) = tried(|number| {
                if number == 3 {
                    stop();
                }
                Ok(())
            });
            let found = found.unwrap_err();
            assert_eq!((found.number, found.stopped), (3, true));
            assert!(found.why.ends_with(why), "{}", found.why);
        }
    }

    #[test]
    fn what_is_missing_was_never_met_or_too_little_of_it() {
        let mut met = Met::of(&["a send"])
            .and(Met::codes("code", [0, 6]))
            .and(Met::sizes("wait of", 1..=2, u64::from));
        met.add_code("code", 0, 1);
        met.add_code("code", 99, 1);
        met.most("wait of", 1, 1);
        met.most("wait of", 2, 1);
        let missing = met.missing();
        assert_eq!(
            (missing[0].as_str(), missing[2].as_str()),
            ("a send", "wait of 2")
        );
        assert!(
            missing[1].starts_with("code 6: the answer space"),
            "{missing:?}"
        );
        met.add("a send", true);
        assert!(met
            .in_words()
            .starts_with("           1  a send\n           1  code 0: done\n"));
    }
}
