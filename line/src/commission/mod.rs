//! Commissioning: the checklist that a field engineer runs on the controller's
//! own table and list before a line is put into service, on a kernel or on what the
//! controller itself left; and the report of it.

mod asked;

use std::ffi::OsString;
use std::path::Path;
use std::process::exit;
use std::time::SystemTime;

use crate::args::Options;
use crate::cases::Case;
use crate::clock::in_utc;
use crate::commission::asked::{Asked, On, VALUED};
use crate::judging::checklist::beyond::{with_campaign, with_drills, with_limits};
use crate::judging::checklist::read_back::ReadBack;
use crate::judging::checklist::{Check, Checklist, Summary, Verdicts};
use crate::judging::compare::kept_calls;
use crate::judging::variants::case_of;
use crate::kernels::boundary::Kernel;
use crate::output::{self, say};
use crate::pictures::potential::potential_in_words;
use crate::refused;
use crate::reports::facts::{Judged, Report, Source};
use crate::reports::sha256::sha256;
use crate::text::dump::{read_dump, Dump};
use crate::text::explain::{call_on_table, counted};
use crate::text::given::read_given;
use crate::text::input::{shown, Input};
use crate::text::names::Names;

/// The command of a program that has these kernels: whether no check failed.
pub fn command(options: &[OsString], kernels: &[Kernel]) -> Result<bool, String> {
    let options = Options::parse(options, &VALUED, &[])?;
    let asked = Asked::of(&options, kernels)?;
    let given = read_given(asked.file)?;
    let input = match given.accepted() {
        Ok(input) => input,
        Err(refusal) => {
            let (file, why) = (shown(asked.file), refused::in_words(&refusal));
            say!("{file} cannot be commissioned: {why}");
            refused::report_mending(asked.file, &refusal);
            return Ok(false);
        }
    };
    let line = Commissioned {
        file: asked.file,
        purged: asked.purged_in(&input.table, &given.names)?,
        input: &input,
        names: &given.names,
    };
    let (judged, verdicts) = match line.judged(&asked.on)? {
        Ok(found) => found,
        Err(why) => {
            say!("{} cannot be judged: {why}", shown(asked.file));
            return Ok(false);
        }
    };
    let written = asked.file_away(&Report {
        made: in_utc(SystemTime::now()),
        place: asked.place(),
        input: source(asked.file, &given.bytes),
        line: &input,
        names: &given.names,
        judged,
        verdicts: &verdicts,
    });
    let well = say_checks(&verdicts);
    output::write(written?.as_bytes());
    end_where_nothing_is_shown(verdicts.summary());
    Ok(well)
}

/// Ends the program with a status of its own where no check failed and none was shown.
fn end_where_nothing_is_shown(Summary { passed, failed, .. }: Summary) {
    if (passed, failed) == (0, 0) {
        exit(3);
    }
}

/// An input that is commissioned: an accepted table, its list and its names.
struct Commissioned<'a> {
    file: &'a Path,
    input: &'a Input,
    names: &'a Names,
    /// The domain whose purged calls are to be listed.
    purged: Option<usize>,
}

/// Verdicts, with what they are about for the report; or why words can't be judged.
type Found = Result<(Judged, Verdicts), String>;

impl Commissioned<'_> {
    fn judged(&self, on: &On) -> Result<Found, String> {
        Ok(match on {
            On::Kernel(kernel, seed, campaign) => Ok(self.by_kernel(*kernel, *seed, *campaign)),
            On::ReadBack { answers, left } => {
                let dumps = [read_dump(answers)?, read_dump(left)?];
                self.by_words([answers, left], dumps)
            }
        })
    }

    /// A kernel's verdicts: on this table and list, by the drills, and by a campaign of so
    /// many runs.
    fn by_kernel(&self, kernel: Kernel, seed: u64, campaign: u64) -> (Judged, Verdicts) {
        self.say_head(kernel.title);
        let list = Checklist::new(kernel, self.input, self.names, seed);
        say!("exercise made from this table: {}", list.size());
        let judged = Judged::Kernel {
            name: kernel.name,
            title: kernel.title,
            seed,
            exercise: list.size(),
        };
        let verdicts = with_drills(&kernel, &self.input.table, list.verdicts());
        let verdicts = with_campaign(&kernel, seed, campaign, verdicts);
        (judged, with_limits(verdicts))
    }

    /// The same of words that were read back; what is wrong with their number.
    fn by_words(&self, files: [&Path; 2], dumps: [Dump; 2]) -> Found {
        let [answers, left] = dumps;
        let judged = Judged::ReadBack {
            answers: source(files[0], &answers.bytes),
            left: source(files[1], &left.bytes),
        };
        let read = ReadBack::new(self.input, self.names, answers.words, left.words)?;
        self.say_head("what was read back from a controller");
        Ok((judged, of_a_controller(read.verdicts())))
    }

    /// Says what is commissioned, and what can be said of its table and list before.
    fn say_head(&self, on: &str) {
        let (file, size) = (shown(self.file), self.input.size());
        say!("commissioning {file} on {on}: {size}");
        if let Some(domain) = self.purged {
            let purged = purged_calls(&case_of(self.input), domain, self.names);
            output::write(purged.as_bytes());
        }
        output::write(potential_in_words(&self.input.table, self.names).as_bytes());
    }
}

/// Verdicts on words that were read back. The judges say that they are a kernel's, as which
/// they compare them; no kernel was run, and they are the controller's.
fn of_a_controller(verdicts: Verdicts) -> Verdicts {
    let reworded = |check: Check| Check {
        judged: check
            .judged
            .map_err(|why| why.replace("the kernel ", "the controller ")),
        ..check
    };
    Verdicts {
        checks: verdicts.checks.map(reworded),
        ..verdicts
    }
}

/// A file with the hash of what was read of it.
fn source(file: &Path, bytes: &[u8]) -> Source {
    Source {
        file: shown(file),
        sha256: sha256(bytes),
    }
}

/// The calls that are purged for a domain, each in words.
fn purged_calls(case: &Case, domain: usize, names: &Names) -> String {
    let calls = kept_calls(case, domain);
    let purged: Vec<String> = calls
        .iter()
        .enumerate()
        .filter(|(_, (_, kept))| !kept)
        .map(|(number, (call, _))| {
            let asked = call_on_table(call, &case.table, names);
            format!("  call {number}: {asked}\n")
        })
        .collect();
    format!(
        "purged for {}: {} of {}\n{}",
        names.domain(domain),
        purged.len(),
        counted(calls.len(), "call"),
        purged.concat()
    )
}

/// Prints the four checks and the summary; whether none failed.
fn say_checks(verdicts: &Verdicts) -> bool {
    for (number, check) in verdicts.checks.iter().enumerate() {
        output::write(in_words(number + 1, check).as_bytes());
    }
    let Summary {
        passed,
        failed,
        not_shown,
    } = verdicts.summary();
    let not_shown = or_nothing(not_shown);
    say!("summary: {passed} passed, {failed} failed{not_shown}");
    failed == 0
}

/// How many things aren't shown, where there are some.
fn or_nothing(not_shown: usize) -> String {
    match not_shown {
        0 => String::new(),
        some => format!(", {some} not shown"),
    }
}

/// A check with its verdict, what it is based on and what isn't shown.
fn in_words(number: usize, check: &Check) -> String {
    let name = check.name;
    let found = match &check.judged {
        Err(why) => return format!("check {number} failed  {name}: {why}\n"),
        Ok(found) => found,
    };
    let verdict = match found.shown {
        true => format!("passed{}", or_nothing(found.not_shown.len())),
        false => "not shown".to_string(),
    };
    let mut text = format!("check {number} {verdict}  {name}: {}\n", found.in_order);
    let not_shown = found
        .not_shown
        .iter()
        .map(|thing| format!("not shown: {thing}"));
    for more in found.based_on.iter().cloned().chain(not_shown) {
        text += &format!("    {more}\n");
    }
    text
}

#[cfg(test)]
mod tests {
    use super::*;
    use crate::kernels::boundary::{PROVED, PROVED_RUNS};
    use crate::kernels::faulty;

    #[test]
    fn every_kernel_is_commissioned_on_the_worked_example() {
        for kernel in PROVED_RUNS {
            let list = Checklist::new(*kernel, &Input::example(), &Names::none(), 1);
            assert!(say_checks(&list.verdicts()), "{}", kernel.name);
        }
    }

    #[test]
    fn purged_calls_are_printed_in_words() {
        let purged = purged_calls(&case_of(&Input::example()), 1, &Names::none());
        let start = "purged for domain 1: 4 of 9 calls\n  call 4: domain 2 receives";
        assert!(purged.starts_with(start));
        assert!(purged.ends_with("call 8: domain 2 asks for its endpoints\n"));
    }

    #[test]
    fn a_purged_caller_that_the_table_has_not_is_printed_as_such() {
        let input = Input {
            list: vec![0x5B40_0000],
            ..Input::example()
        };
        let purged = purged_calls(&case_of(&input), 1, &Names::none());
        assert!(purged.ends_with("domain 45, which the table hasn't, asks for its rights\n"));
    }

    fn checks(kernel: Kernel, table: &[u32]) -> [String; 4] {
        let input = Input {
            table: table.to_vec(),
            list: vec![],
        };
        let mut number = 0;
        Checklist::new(kernel, &input, &Names::none(), 1)
            .verdicts()
            .checks
            .map(|check| {
                number += 1;
                in_words(number, &check)
            })
    }

    #[test]
    fn a_check_is_no_bare_passed_where_something_is_not_shown() {
        let [refusals, answers, isolation, counts] = checks(PROVED, &[0x1000_0100, 0x2000_0000]);
        assert!(refusals.starts_with("check 1 passed, 4 not shown  refusals: "));
        assert!(answers.starts_with("check 2 passed, 5 not shown  answers and table: "));
        assert!(answers.contains("\n    not shown: anything by this list: it has no call\n"));
        assert!(isolation.starts_with("check 3 not shown  isolation: "));
        assert!(isolation.ends_with("not shown: isolation of domain 0: there is no other domain\n"));
        assert!(counts.starts_with("check 4 passed, 1 not shown  counts: "));
    }

    #[test]
    fn a_check_that_fails_says_why_and_no_more() {
        let table = Input::example().table;
        let [refusals, answers, isolation, counts] = checks(faulty::WRONG_ANSWER, &table);
        assert!(refusals.starts_with("check 1 failed  refusals: the list "));
        assert!(answers.starts_with("check 2 failed  answers and table: exercise list 0"));
        assert!(answers.ends_with("data 0 0\n") && !answers.contains("not shown"));
        assert!(isolation.starts_with("check 3 failed  isolation: exercise list"));
        assert!(counts.starts_with("check 4 passed  counts: "), "{counts}");
    }
}
