//! What the commands have in common that try random things by their numbers, beside the
//! reference: `bench step`, `bench queue`, `bench tables` and `bench histories`; and
//! how a line asks for it, which is the same for programs that are tried.

use std::ffi::OsString;

use line::args::Options;
use line::judging::trying::{Draws, Met};
use line::output::{self, say};
use line::text::explain::counted;

/// The options that say what is tried.
pub const TRIED: [&str; 4] = ["--cases", "--seed", "--from", "--time"];

/// The seconds that one of them may take where nothing else is asked for.
const TIME: u64 = 10;

/// What such a command tries.
pub struct Drawn {
    /// What the last line calls all of them, and one of them.
    pub all: &'static str,
    pub one: &'static str,
    /// How many are tried where nothing else is asked for, and from how many on
    /// everything must be met.
    pub cases: u64,
    pub enough: u64,
    pub met: fn() -> Met,
}

impl Drawn {
    /// Tries what the line asks for; whether nothing differs and all is met that must be.
    pub fn command(
        &self,
        line: &[OsString],
        tried: impl FnOnce(&Draws, &mut Met) -> Result<(), String>,
    ) -> Result<bool, String> {
        let draws = self.draws(line)?;
        let mut met = (self.met)();
        match tried(&draws, &mut met) {
            Ok(()) => Ok(self.ended(&draws, &met)),
            Err(report) => {
                say!("{report}");
                Ok(false)
            }
        }
    }

    fn draws(&self, line: &[OsString]) -> Result<Draws, String> {
        let options = Options::parse(line, &TRIED, &[])?;
        options.no_file()?;
        draws_of(&options, self.cases)
    }

    fn ended(&self, draws: &Draws, met: &Met) -> bool {
        let tried = counted(draws.count(), self.one);
        let what = format!("{} of balkwizu, {tried} with seed {}", self.all, draws.seed);
        all_is_met(met, draws.count() >= self.enough, &what)
    }
}

/// Prints what was met; whether that is all that must be, where enough was tried.
pub fn all_is_met(met: &Met, enough: bool, what: &str) -> bool {
    output::write(met.in_words().as_bytes());
    let missing = met.missing();
    let verdict = match missing.is_empty() {
        _ if !enough => "nothing differs; too few to ask that everything is met".to_string(),
        true => "passed".to_string(),
        false => format!("FAILED: never met: {}", missing.join(", ")),
    };
    say!("{what}: {verdict}");
    !enough || missing.is_empty()
}

/// What a line asks for, with so many where no number is given.
pub fn draws_of(options: &Options, usual: u64) -> Result<Draws, String> {
    let cases = options.number("--cases")?.unwrap_or(usual);
    if cases == 0 {
        return Err("--cases 0 leaves nothing to compare".to_string());
    }
    Ok(Draws {
        seed: options.number("--seed")?.unwrap_or(1),
        numbers: options.numbers("--cases", cases)?,
        limit: options.time(TIME)?,
    })
}

#[cfg(test)]
mod tests {
    use super::*;
    use crate::commands::{histories, queue, step, tables};
    use line::trial::draws;

    const DRAWN: Drawn = Drawn {
        all: "things",
        one: "thing",
        cases: 7,
        enough: 5,
        met: || Met::of(&["something"]),
    };

    #[test]
    fn what_was_never_met_is_a_failure_only_where_enough_was_tried() {
        assert!(!DRAWN.ended(&draws(0..5), &(DRAWN.met)()));
        assert!(DRAWN.ended(&draws(0..4), &(DRAWN.met)()));
    }

    #[test]
    fn the_help_says_from_where_on_everything_must_be_met() {
        let all = [
            (histories::HELP, histories::HISTORIES),
            (queue::HELP, queue::QUEUES),
            (step::HELP, step::STEPS),
            (tables::HELP, tables::TABLES),
        ];
        for (help, drawn) in all {
            let from = format!("From {},000 ", drawn.enough / 1000);
            assert!(help.contains(&from), "{from}");
        }
    }

    #[test]
    fn so_many_are_tried_as_are_asked_for() {
        let count = |line: &[&str]| {
            let line: Vec<OsString> = line.iter().map(OsString::from).collect();
            DRAWN.draws(&line).map(|draws| draws.count())
        };
        assert_eq!(count(&[]), Ok(7));
        assert_eq!(count(&["--cases", "3"]), Ok(3));
        assert!(count(&["--cases", "0"]).is_err());
        assert!(count(&["file"]).is_err());
    }
}
