//! `bench fuzz`: random runs of a kernel beside the reference, its check of table images and
//! the writer of lists likewise.

use std::ffi::OsString;

use crate::kernels::plain::kernel;
use line::args::Options;
use line::judging::images::try_images;
use line::judging::lists::{self, try_lists};
use line::judging::runs::try_runs;
use line::judging::tally::Tally;
use line::judging::trying::{Draws, Met};
use line::kernels::boundary::{Kernel, PROVED_WRITER};
use line::output::{self, say};

pub const HELP: &str = "\
bench fuzz [--cases N] [--seed S] [--table-checks N] [--lists N] [--from K]
           [--kernel NAME] [--time T]

Runs a kernel on random tables, lists and answer spaces beside the reference and
compares the code, the number of calls, every table word, every answer word and
the words beyond; then, for a domain, what it sees of the kernel's run with the
reference's run of the calls kept for it; then the counts of every queue; then,
from a second table that differs only where a domain can't be reached, that this
domain sees the same; then which calls are read as such, and that a list of
these is written as it came. Compares the check of table images too: sound,
damaged, cut short, too long, of odd lengths, any bytes. And the proved writer
of lists: calls that can be written and that can't, in spaces that are large
enough, just so and too short, every word of them.

  --cases N         runs to try (default 20,000)
  --table-checks N  table images to try (default 4 for each run)
  --lists N         lists to write (default 1 for 16 runs)
  --seed S          the seed that everything is drawn from (default 1)
  --from K          the number of the first run, image and list (default 0)
  --kernel NAME     balkwizu (default), balkwizu-working, balkwizu-by-length,
                    plain-gcc or plain-clang; or a wrong one of bench/c/wrong,
                    as wrong-faults
  --time T          the processor seconds that one run, image or list may take
                    (default 10)

The first difference ends it, with the words that show it as `balkwizu write`
takes them: with as few calls and on as small a table as still differ. The
kernel runs in a child process: one that faults, that takes longer or that ends
the program is reported in the same way, as STOPPED.

From 10,000 runs on, a code that no run was answered with is a failure too, and
likewise from 10,000 table images and from 500 lists on; fewer may miss one by
chance. A line of progress is shown on a terminal only.

Exit status: 0 nothing differs, and every code was met where that is asked; 1
otherwise; 2 bad usage.
";

/// From so many runs or images on every code must be met.
const ENOUGH: u64 = 10_000;

/// From so many lists on everything that a writer can meet must be.
const ENOUGH_LISTS: u64 = 500;

/// How many runs there are for each list to write.
const RUNS_FOR_A_LIST: u64 = 16;

/// The seconds that one run, image or list may take where nothing else is asked for: far more
/// than the longest takes, with all that it is compared with, in a slow build.
const TIME: u64 = 10;

/// What is to be tried.
struct Plan {
    kernel: Kernel,
    runs: Draws,
    images: Draws,
    lists: Draws,
}

/// The command: whether nothing differs, and every code was met where that is asked.
pub fn command(line: &[OsString]) -> Result<bool, String> {
    let valued = [
        "--cases",
        "--seed",
        "--table-checks",
        "--lists",
        "--from",
        "--kernel",
        "--time",
    ];
    let options = Options::parse(line, &valued, &[])?;
    options.no_file()?;
    let plan = plan(&options)?;
    let verdict = tried(&plan);
    let ended = match &verdict {
        Ok(passed) => passed,
        Err(report) => {
            say!("{report}");
            "FAILED"
        }
    };
    say!(
        "fuzz of {} with seed {}: {ended}",
        plan.kernel.name,
        plan.runs.seed
    );
    Ok(verdict.is_ok())
}

fn plan(options: &Options) -> Result<Plan, String> {
    let runs = options.number("--cases")?.unwrap_or(20_000);
    let images = options.number("--table-checks")?;
    let images = images.unwrap_or(runs.saturating_mul(4));
    let lists = options.number("--lists")?;
    let lists = lists.unwrap_or(runs / RUNS_FOR_A_LIST);
    if runs == 0 && images == 0 && lists == 0 {
        return Err("no runs, table images and lists leave nothing to compare".to_string());
    }
    let seed = options.number("--seed")?.unwrap_or(1);
    let limit = options.time(TIME)?;
    let draws = |name, count| {
        options.numbers(name, count).map(|numbers| Draws {
            seed,
            numbers,
            limit,
        })
    };
    Ok(Plan {
        kernel: kernel(options.text("--kernel").unwrap_or("balkwizu"))?,
        runs: draws("--cases", runs)?,
        images: draws("--table-checks", images)?,
        lists: draws("--lists", lists)?,
    })
}

/// How a fuzz ends that finds no difference. What was met is printed where nothing differs:
/// beside a difference nobody reads it.
fn tried(plan: &Plan) -> Result<String, String> {
    let (mut tally, mut of_lists) = (Tally::default(), lists::met());
    try_runs(&plan.kernel, &plan.runs, &mut tally)?;
    try_images(&plan.kernel, &plan.images, &mut tally)?;
    try_lists(PROVED_WRITER, &plan.lists, &mut of_lists)?;
    verdict_on(&[
        ("runs", plan.runs.count(), ENOUGH, &tally.runs),
        ("table images", plan.images.count(), ENOUGH, &tally.images),
        ("lists", plan.lists.count(), ENOUGH_LISTS, &of_lists),
    ])
}

/// How many things were tried, how many are enough to meet everything, and what was met.
type Tried<'a> = (&'static str, u64, u64, &'a Met);

/// An error where enough was tried and yet something was never met.
fn verdict_on(tried: &[Tried]) -> Result<String, String> {
    let (mut missing, mut few) = (Vec::new(), Vec::new());
    for (name, count, enough, met) in tried.iter().filter(|(_, count, ..)| *count > 0) {
        output::write(met.in_words().as_bytes());
        match count >= enough {
            true => missing.extend(met.missing()),
            false => few.push(*name),
        }
    }
    match (missing.is_empty(), few.is_empty()) {
        (false, _) => Err(format!(
            "never met, so not compared: {}",
            missing.join(", ")
        )),
        (true, true) => Ok("passed".to_string()),
        (true, false) => Ok(format!(
            "nothing differs; too few {} to ask that every code is met",
            few.join(" and ")
        )),
    }
}

#[cfg(test)]
mod tests {
    use super::*;

    #[test]
    fn a_code_never_met_is_a_failure_only_where_enough_was_tried() {
        assert!(HELP.contains("From 10,000 runs on") && HELP.contains("from 500 lists on"));
        let (tally, of_lists) = (Tally::default(), lists::met());
        let of = |runs, images, lists| {
            verdict_on(&[
                ("runs", runs, ENOUGH, &tally.runs),
                ("table images", images, ENOUGH, &tally.images),
                ("lists", lists, ENOUGH_LISTS, &of_lists),
            ])
        };
        let missing = of(ENOUGH, 1, 1).unwrap_err();
        assert!(missing.contains("run code 6: ") && missing.contains("call code 10: "));
        assert!(!missing.contains("image code") && !missing.contains("4,097"));
        let missing = of(0, ENOUGH, 1).unwrap_err();
        assert!(missing.contains("image code 5: "), "{missing}");
        let missing = of(0, 0, ENOUGH_LISTS).unwrap_err();
        assert!(missing.contains("a list of 4,097 words"), "{missing}");
        let few = of(ENOUGH - 1, 0, 0).unwrap();
        assert_eq!(
            few,
            "nothing differs; too few runs to ask that every code is met"
        );
        let few = of(1, 1, 1).unwrap();
        assert!(few.contains("too few runs and table images and lists to"));
    }
}
