//! The four checks of the checklist, judged on the exercise and on the list that was
//! handed in. Each says what it is based on, and what of it this table can't show.

pub mod basis;
pub mod beyond;
mod checks;
pub mod read_back;
mod refusals;
mod shown;

use reference::generate::Rng;

use crate::cases::Case;
use crate::judging::checklist::basis::Basis;
use crate::judging::checklist::shown::NotShown;
use crate::judging::exercise::{exercise, Planned};
use crate::judging::variants::{case_of, damaged_tables, scrambled_lists, Variant};
use crate::kernels::boundary::Kernel;
use crate::kernels::child;
use crate::kernels::lent::{Failure, Ran, Stopped};
use crate::progress::{phase, Progress};
use crate::text::explain::counted;
use crate::text::input::Input;
use crate::text::names::Names;

/// What the list that was handed in is called.
pub const THIS_LIST: &str = "this list";

/// So many runs that don't return are waited for; what is after them isn't run.
const LOOPS: usize = 2;

/// So many words are lent in one child process, or those of one run that has more.
const WORDS_AT_A_TIME: usize = 400_000;

/// What the checklist came to.
pub struct Verdicts {
    pub checks: [Check; 4],
    /// What the run of this list left, or why there is no such run.
    pub left: Result<Ran, String>,
}

/// How many checks passed and failed, and how many things aren't shown.
#[derive(Debug, Clone, Copy, Default, PartialEq, Eq)]
pub struct Summary {
    pub passed: usize,
    pub failed: usize,
    pub not_shown: usize,
}

impl Verdicts {
    pub fn summary(&self) -> Summary {
        let mut summary = Summary::default();
        for check in &self.checks {
            match &check.judged {
                Err(_) => summary.failed += 1,
                Ok(found) => {
                    summary.passed += usize::from(found.shown);
                    summary.not_shown += found.not_shown.len();
                }
            }
        }
        summary
    }
}

/// What is gone through.
pub struct Checklist {
    kernel: Kernel,
    names: Names,
    /// The exercise's lists, then the one that was handed in.
    lists: Vec<Planned>,
    exercise: Basis,
    damaged: Vec<Variant>,
    scrambled: Vec<Variant>,
}

/// The kernel's runs of all lists, as far as they were made.
type Runs = [Result<Ran, Failure>];

/// A check that was judged: what was found in order, or the first difference.
pub struct Check {
    pub name: &'static str,
    pub judged: Judged,
}

pub type Judged = Result<Found, String>;

impl Check {
    /// A check, with the names beside the numbers of a failure: those who judge know none.
    fn new(name: &'static str, judged: Judged, names: &Names) -> Check {
        let judged = judged.map_err(|why| names.beside(&why));
        Check { name, judged }
    }

    /// The verdict in a word or two.
    pub fn verdict(&self) -> &'static str {
        match &self.judged {
            Err(_) => "failed",
            Ok(found) if found.shown => "passed",
            Ok(_) => "not shown",
        }
    }
}

/// What a check that didn't fail was found to be.
#[derive(Debug)]
pub struct Found {
    pub in_order: &'static str,
    pub based_on: Vec<String>,
    pub not_shown: NotShown,
    /// False where all that the check is about holds only because there is nothing to show.
    pub shown: bool,
}

impl Checklist {
    pub fn new(kernel: Kernel, input: &Input, names: &Names, seed: u64) -> Checklist {
        let mut rng = Rng::new(seed);
        let damaged = damaged_tables(input, &mut rng);
        let scrambled = scrambled_lists(input, &mut rng);
        let mut lists = exercise(&input.table);
        let basis = Basis::of(lists.iter().map(|list| &list.case));
        lists.push(Planned {
            what: THIS_LIST.to_string(),
            case: case_of(input),
        });
        Checklist {
            kernel,
            names: names.clone(),
            lists,
            exercise: basis,
            damaged,
            scrambled,
        }
    }

    /// How much there is of the exercise.
    pub fn size(&self) -> String {
        let lists = self.exercise_lists();
        let words: usize = lists.iter().map(|list| list.case.list.len()).sum();
        format!(
            "{}, {} in {}",
            counted(lists.len(), "list"),
            counted(self.exercise.calls, "call"),
            counted(words, "word")
        )
    }

    pub fn verdicts(&self) -> Verdicts {
        let runs = phase("running the exercise", || self.runs());
        let check = |name, judged| Check::new(name, judged, &self.names);
        let refusals = phase("judging refusals", || self.refusals(&runs));
        let checks = [
            check("refusals", refusals),
            check("answers and table", self.answers_and_table(&runs)),
            check("isolation", self.isolation(&runs)),
            check("counts", self.counts(&runs)),
        ];
        let left = match runs.into_iter().nth(self.lists.len() - 1) {
            Some(ran) => ran.map_err(String::from),
            None => Err(format!("{THIS_LIST} was not run")),
        };
        Verdicts { checks, left }
    }

    /// A line of progress for whoever goes through all lists.
    fn progress(&self) -> Progress {
        Progress::new("lists judged", &(0..self.lists.len() as u64))
    }

    fn exercise_lists(&self) -> &[Planned] {
        &self.lists[..self.lists.len() - 1]
    }

    fn this_list(&self) -> &Case {
        &self.lists[self.lists.len() - 1].case
    }

    /// The kernel's runs of all lists, as far as they were made.
    fn runs(&self) -> Vec<Result<Ran, Failure>> {
        let cases: Vec<&Case> = self.lists.iter().map(|list| &list.case).collect();
        let mut runs = Vec::new();
        each_run(&self.kernel, &cases, |_, ran| {
            runs.push(ran);
            true
        });
        runs
    }

    /// Each list with its run, as far as they were made.
    fn listed<'a>(
        &'a self,
        runs: &'a Runs,
    ) -> impl Iterator<Item = (&'a Planned, &'a Result<Ran, Failure>)> {
        self.lists.iter().zip(runs)
    }
}

/// Hands on a kernel's runs of cases, each with its number, as long as `take` goes on;
/// where one stops, those after it are run in another child process.
fn each_run(
    kernel: &Kernel,
    cases: &[&Case],
    mut take: impl FnMut(usize, Result<Ran, Failure>) -> bool,
) {
    let (mut next, mut loops) = (0, 0);
    while next < cases.len() && loops < LOOPS {
        let together = at_a_time(&cases[next..]);
        for ran in child::runs(kernel, &cases[next..next + together], child::LIMIT) {
            let looped = Err(Failure::Stopped(Stopped::Loop(child::LIMIT)));
            loops += usize::from(ran == looped);
            if !take(next, ran) {
                return;
            }
            next += 1;
        }
    }
}

/// How many of some cases go together into one child process.
fn at_a_time(cases: &[&Case]) -> usize {
    let mut words = 0;
    let fits = |case: &&&Case| {
        words += case.table.len() + case.answers.len();
        words <= WORDS_AT_A_TIME
    };
    cases.iter().take_while(fits).count().max(1)
}

#[cfg(test)]
mod tests {
    use super::*;
    use crate::kernels::boundary::PROVED;
    use crate::kernels::faulty;

    fn checks(kernel: Kernel) -> [Judged; 4] {
        let checks = Checklist::new(kernel, &Input::example(), &Names::none(), 1)
            .verdicts()
            .checks;
        checks.map(|check| check.judged)
    }

    fn failed(kernel: Kernel, check: usize) -> String {
        let mut checks = checks(kernel);
        let judged = std::mem::replace(&mut checks[check - 1], Err(String::new()));
        judged.expect_err("the check fails")
    }

    #[test]
    fn each_check_fails_for_the_fault_that_it_is_for() {
        let code = failed(faulty::WRONG_CODE, 1);
        assert!(code.contains("the kernel ends with code 6"), "{code}");
        let changed = failed(faulty::WRONG_TABLE, 1);
        assert!(changed.contains("a word was changed"), "{changed}");
        let answer = failed(faulty::WRONG_ANSWER, 2);
        assert!(answer.starts_with("exercise list 0 ("), "{answer}");
        let seen = failed(faulty::WRONG_ANSWER, 3);
        assert!(
            seen.starts_with("exercise list ") && seen.contains("): domain "),
            "{seen}"
        );
        let lost = failed(faulty::LOSES_COUNT, 4);
        assert!(
            lost.contains("): endpoint 1: the lost count should"),
            "{lost}"
        );
        let count = failed(faulty::WRONG_COUNT, 4);
        assert!(count.contains("): it has ") && count.contains(" and the kernel says "));
    }

    #[test]
    fn a_kernel_that_alters_word_0_is_judged_all_the_same() {
        for check in [1, 2, 3, 4] {
            failed(faulty::WRITES_WORD_0, check);
        }
        let said = failed(faulty::WRITES_WORD_0, 3);
        assert!(
            said.ends_with("the kernel alters word 0 of the table"),
            "{said}"
        );
    }

    #[test]
    fn a_wrong_check_of_images_fails_check_1() {
        let said = failed(faulty::LENIENT_CHECK, 1);
        assert!(
            said.ends_with("its image is checked with 0, it should be 5"),
            "{said}"
        );
    }

    #[test]
    fn a_kernel_that_stops_fails_check_1_with_the_call_that_does_it() {
        let said = failed(faulty::FAULTS_AT_A_GRANT, 1);
        assert!(said.starts_with("exercise list 0 ("), "{said}");
        assert!(
            said.contains("signal 11 (segmentation fault)\nCut down to 1 call:"),
            "{said}"
        );
        let list = said.split_once("\nlist\n").expect("a list").1;
        assert!(list.starts_with('6'), "{said}");
        let others = failed(faulty::FAULTS_AT_A_GRANT, 4);
        assert!(others.contains("were finished and are right"), "{others}");
    }

    #[test]
    fn what_a_check_is_based_on_is_said() {
        let [refusals, answers, isolation, counts] = checks(PROVED).map(|judged| {
            let found = judged.expect("no check fails");
            found.based_on.join("\n")
        });
        assert!(refusals.contains(" damaged tables: ") && refusals.contains(" with another name"));
        assert!(answers.contains("done in this list: 2 sends (1 to a full queue), 1 receive, "));
        assert!(isolation.contains(": domain 0: 3 and "), "{isolation}");
        assert!(
            counts.starts_with("call totals: 9 for this list, "),
            "{counts}"
        );
        let read_back =
            "endpoint 1: sent 2, received 1, lost 1, waiting 0 before and 0 after, lost \
                         count 1; in the exercise: sent ";
        assert!(counts.contains(read_back), "{counts}");
        assert!(counts.ends_with("on a copy of this table with its lost counts one below it"));
    }

    #[test]
    fn a_count_at_its_top_is_said() {
        let mut input = Input::example();
        input.table[25] = 0x6FFF_FFFF;
        let checks = Checklist::new(PROVED, &input, &Names::none(), 1)
            .verdicts()
            .checks;
        let counts = checks[3].judged.as_ref().expect("it passes");
        let said = counts.based_on.join("\n");
        assert!(said.contains("lost count 268435455, at its top: it counts no further loss; in"));
        assert!(said.ends_with("on this table and on a copy with all lost counts one below it"));
    }
}
