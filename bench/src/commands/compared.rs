//! What `bench linerun` and `bench totals` have in common: a program is run on fixed inputs
//! and on random ones, and what it prints is compared with what the reference prints.

use std::path::Path;
use std::time::Duration;

use crate::cases::inputs::Given;
use crate::commands::drawn::all_is_met;
use crate::judging::printed::difference;
use crate::kernels::program::{run, Feed, Ran};
use line::judging::trying::{Draws, Met};
use line::output;
use line::progress::Progress;
use line::text::explain::counted;
use line::text::input::shown;

/// A program of the repository.
pub struct Program {
    /// The command that compares it.
    pub name: &'static str,
    /// The inputs that come first, and that of a seed and a number.
    pub fixed: fn(Duration) -> Vec<Given>,
    pub given: fn(u64, u64, Duration) -> Given,
    /// What the reference prints.
    pub right: fn(&[u8]) -> Vec<u8>,
    /// The code in that.
    pub code: fn(&str) -> Option<u32>,
    /// The ways in which an input is given, and which of them it was given in.
    pub ways: &'static [&'static str],
    pub used: fn(&[u8], Feed) -> Vec<bool>,
    /// From so many inputs on every code and way must be met.
    pub enough: u64,
    /// More of an input that differs.
    pub more: fn(&Path, &Given, &Ran) -> String,
}

impl Program {
    /// Every code and way.
    pub fn met(&self) -> Met {
        Met::codes("code", [0, 1, 2, 3, 4, 5, 7]).and(Met::of(self.ways))
    }

    /// Holds a program to the reference, on the fixed inputs where the numbers start at 0 and
    /// on random ones; whether nothing differs and all is met.
    pub fn compare(&self, program: &Path, draws: &Draws) -> Result<bool, String> {
        let mut met = self.met();
        let fixed = match draws.numbers.start {
            0 => (self.fixed)(draws.limit),
            _ => Vec::new(),
        };
        for (number, given) in fixed.iter().enumerate() {
            if let Some(why) = self.differs(program, given, "", &mut met)? {
                output::write(format!("DIFFERENCE in fixed input {number}{why}").as_bytes());
                return Ok(false);
            }
        }
        let (name, seed, path) = (self.name, draws.seed, shown(program));
        let mut progress = Progress::new("inputs", &draws.numbers);
        for number in draws.numbers.clone() {
            let given = (self.given)(seed, number, draws.limit);
            let line = format!("bench {name} {path} --seed {seed} --from {number} --cases 1");
            let again = format!("To see it again: {line}\n");
            if let Some(why) = self.differs(program, &given, &again, &mut met)? {
                progress.clear();
                let head = format!("DIFFERENCE in input {number} of seed {seed}");
                output::write((head + &why).as_bytes());
                return Ok(false);
            }
            progress.step();
        }
        progress.clear();
        let what = format!("{} of {path}", counted(draws.count(), "input"));
        Ok(all_is_met(&met, draws.count() >= self.enough, &what))
    }

    /// What a program prints otherwise than the reference, if anything.
    fn differs(
        &self,
        program: &Path,
        given: &Given,
        again: &str,
        met: &mut Met,
    ) -> Result<Option<String>, String> {
        let right = (self.right)(&given.input);
        let ran = run(program, &given.input, given.feed)?;
        self.count(given, &right, met);
        let bytes = counted(given.input.len(), "byte");
        let more = || (self.more)(program, given, &ran);
        let report = |why| format!(", {bytes}:\n  {why}\n{again}{}", more());
        Ok(difference(&ran, &right).map(report))
    }

    /// Counts an input, with how it was given and the code of what is right.
    pub fn count(&self, given: &Given, right: &[u8], met: &mut Met) {
        let code = (self.code)(&String::from_utf8_lossy(right));
        met.add_code("code", code.unwrap_or(u32::MAX), 1);
        let used = (self.used)(&given.input, given.feed);
        for (way, used) in self.ways.iter().zip(used) {
            met.add(way, used);
        }
    }
}

#[cfg(test)]
pub mod tests {
    use super::*;

    /// As many inputs as must meet everything do, and the help says so.
    pub fn inputs_meet_every_code_and_way(program: &Program, help: &str, enough: &str) {
        assert!(help.contains(&format!("From {enough} inputs on")));
        assert_eq!(enough.replace(',', ""), program.enough.to_string());
        let mut met = program.met();
        for number in 0..program.enough {
            let given = (program.given)(1, number, Duration::from_secs(10));
            program.count(&given, &(program.right)(&given.input), &mut met);
        }
        assert_eq!(met.missing(), [""; 0]);
    }
}
