//! Checks 2, 3 and 4: answers and table, isolation, counts.

use reference::table::{domains, endpoints, lost, waiting};
use reference::words::CONTENT_MAX;
use reference::{cut, members};

use super::{each_run, Checklist, Found, Judged, Runs};
use crate::cases::Case;
use crate::judging::checklist::basis::Basis;
use crate::judging::checklist::shown;
use crate::judging::compare::{difference, isolation, separate_run, Purged};
use crate::judging::counts;
use crate::judging::variants::Variant;
use crate::kernels::lent::Ran;
use crate::text::explain::counted;
use crate::text::names::Names;

/// So many domains are named where each may have to be named for each.
const DOMAINS_BY_NAME: usize = 6;

impl Checklist {
    /// Check 2.
    pub(super) fn answers_and_table(&self, runs: &Runs) -> Judged {
        self.judged(runs, |_, case, ran| word_difference(case, ran))?;
        let variants = self.variants()?;
        let list = Basis::of([self.this_list()]);
        Ok(Found {
            in_order: "every word is the reference's",
            based_on: vec![
                format!("done in the exercise: {}", self.exercise.done_in_words()),
                format!("done in this list: {}", list.done_in_words()),
                format!(
                    "and {} of this table and list",
                    counted(variants, "variant")
                ),
            ],
            not_shown: shown::answers_and_table(
                &self.this_list().table,
                &self.exercise,
                &list,
                &self.names,
            ),
            shown: true,
        })
    }

    /// The variants of the table and the list that ran, none of which differs.
    fn variants(&self) -> Result<usize, String> {
        let variants: Vec<&Variant> = self.damaged.iter().chain(&self.scrambled).collect();
        let cases: Vec<&Case> = variants.iter().map(|variant| &variant.case).collect();
        let (mut first, mut ran_to_the_end) = (Ok(()), 0);
        each_run(&self.kernel, &cases, |number, ran| {
            let judged = ran.map_err(String::from).and_then(|ran| {
                ran_to_the_end += usize::from(ran.outcome.code == 0);
                word_difference(cases[number], &ran)
            });
            first = judged.map_err(|why| format!("{}: {why}", variants[number].what));
            first.is_ok()
        });
        first.map(|()| ran_to_the_end)
    }

    /// Check 3.
    pub(super) fn isolation(&self, runs: &Runs) -> Judged {
        let table = &self.this_list().table;
        let nothing = vec![Purged::default(); domains(table)];
        let (mut exercise, mut list) = (nothing.clone(), nothing);
        self.judged(runs, |number, case, ran| {
            let purged = match number < self.exercise_lists().len() {
                true => &mut exercise,
                false => &mut list,
            };
            for (domain, purged) in purged.iter_mut().enumerate() {
                purged.add(isolation(case, ran, domain)?);
            }
            Ok(())
        })?;
        let has_calls = !self.this_list().list.is_empty();
        let of_list = has_calls.then_some(&list[..]);
        Ok(Found {
            in_order: "every domain sees the same without the calls purged for it",
            based_on: vec![
                purged_in_words(&list, &exercise, &self.names),
                sources_in_words(self.this_list(), &self.names),
            ],
            not_shown: shown::isolation(table, &exercise, of_list, &self.names),
            shown: exercise.iter().any(|purged| purged.by_domains != 0),
        })
    }

    /// Check 4.
    pub(super) fn counts(&self, runs: &Runs) -> Judged {
        self.judged(runs, |_, case, ran| count_difference(case, ran))?;
        let mut based_on = vec![format!(
            "call totals: {} for this list, {} for the exercise",
            cut(&self.this_list().list).len(),
            self.exercise.calls
        )];
        let table = &self.this_list().table;
        if let Some(Ok(after)) = runs.last() {
            let read = |endpoint| self.read_back(endpoint, after);
            based_on.extend((0..endpoints(table)).map(read));
        }
        if self.exercise.at.iter().any(|at| at.queue.at_top != 0) {
            based_on.push(self.tops_in_words());
        }
        Ok(Found {
            in_order: "what was sent is received, lost or waiting",
            based_on,
            not_shown: shown::counts(table, &self.exercise, &self.names),
            shown: true,
        })
    }

    /// An endpoint's counts in this list and in the exercise.
    fn read_back(&self, endpoint: usize, after: &Ran) -> String {
        let exercise = self.exercise.at[endpoint].queue;
        format!(
            "{}; in the exercise: sent {}, received {}, lost {}",
            endpoint_counts(self.this_list(), after, endpoint, &self.names),
            exercise.sent,
            exercise.received,
            exercise.full
        )
    }

    /// Where the lost counts that stand at their top come from.
    fn tops_in_words(&self) -> String {
        let table = &self.this_list().table;
        let at_top = |&e: &usize| lost(table, e) >= CONTENT_MAX - 1;
        let own = (0..endpoints(table)).filter(at_top).count();
        let at_top: u64 = self.exercise.at.iter().map(|at| at.queue.at_top).sum();
        let copy = match own {
            0 => ", on a copy of this table with its lost counts one below it",
            _ => ", on this table and on a copy with all lost counts one below it",
        };
        format!(
            "{} with the lost count at its top{copy}",
            counted(at_top, "full send")
        )
    }

    /// The first difference that `judge` finds in a run, given its list's number;
    /// otherwise, the first list that the kernel didn't come to the end of.
    fn judged(
        &self,
        runs: &Runs,
        mut judge: impl FnMut(usize, &Case, &Ran) -> Result<(), String>,
    ) -> Result<(), String> {
        let (mut finished, mut unfinished) = (0, None);
        let mut progress = self.progress();
        for (number, (list, ran)) in self.listed(runs).enumerate() {
            progress.step();
            let of_list = |why: String| format!("{}: {why}", list.what);
            match ran {
                Ok(ran) => {
                    let judged = same_size(&list.case, ran);
                    let judged = judged.and_then(|()| judge(number, &list.case, ran));
                    if let Err(why) = judged {
                        progress.clear();
                        return Err(of_list(why));
                    }
                    finished += 1;
                }
                Err(why) => unfinished = unfinished.or(Some(of_list(why.to_string()))),
            }
        }
        progress.clear();
        let all = counted(self.lists.len(), "list");
        let others = || format!("; {finished} of {all} were finished and are right");
        unfinished.map_or(Ok(()), |why| Err(why + &others()))
    }
}

/// An endpoint's counts in a run of a list.
pub(super) fn endpoint_counts(case: &Case, after: &Ran, endpoint: usize, names: &Names) -> String {
    let calls = cut(&case.list);
    let run = counts::follow(&case.table, &calls, &after.answers).queues[endpoint];
    let lost_count = lost(&after.table, endpoint);
    let top = match lost_count {
        CONTENT_MAX => ", at its top: it counts no further loss",
        _ => "",
    };
    format!(
        "{}: sent {}, received {}, lost {}, waiting {} before and {} after, lost count \
         {lost_count}{top}",
        names.endpoint(endpoint),
        run.sent,
        run.received,
        run.full,
        waiting(&case.table, endpoint),
        waiting(&after.table, endpoint)
    )
}

/// That the table is left with the numbers that it is read by.
pub(super) fn same_size(case: &Case, ran: &Ran) -> Result<(), String> {
    match case.table[0] == ran.table[0] {
        true => Ok(()),
        false => Err("the kernel alters word 0 of the table".to_string()),
    }
}

pub(super) fn word_difference(case: &Case, ran: &Ran) -> Result<(), String> {
    match difference(case, ran, &separate_run(case)?) {
        Some(why) => Err(why),
        None => Ok(()),
    }
}

pub(super) fn count_difference(case: &Case, ran: &Ran) -> Result<(), String> {
    let calls = cut(&case.list);
    if ran.outcome.calls as usize != calls.len() {
        let calls = counted(calls.len(), "call");
        return Err(format!(
            "it has {calls} and the kernel says {}",
            ran.outcome.calls
        ));
    }
    match counts::difference(&case.table, &ran.table, &calls, &ran.answers) {
        Some(why) => Err(why),
        None => Ok(()),
    }
}

/// The source set of each domain over a list: whose calls count for it. A line may have
/// some hundred of them to print: names are there where the domains are few.
pub(super) fn sources_in_words(case: &Case, names: &Names) -> String {
    let (n, calls, none) = (domains(&case.table), cut(&case.list), Names::none());
    let names = if n > DOMAINS_BY_NAME { &none } else { names };
    let each = (0..n).map(|domain| {
        let set: Vec<usize> = members(&case.table, &calls, domain).into_iter().collect();
        format!("{}: {}", names.domain(domain), names.domain_row(&set))
    });
    let each: Vec<String> = each.collect();
    format!(
        "source set of each domain over this list: {}",
        each.join(", ")
    )
}

/// The calls purged for each domain, those of other domains apart from those that are
/// purged for everyone.
fn purged_in_words(list: &[Purged], exercise: &[Purged], names: &Names) -> String {
    let each = (0..).zip(list.iter().zip(exercise));
    let each = each.map(|(domain, (list, exercise))| {
        let (list, exercise) = (list.by_domains, exercise.by_domains);
        format!("{}: {list} and {exercise}", names.domain(domain))
    });
    let nobody = |purged: &Purged| purged.calls - purged.by_domains;
    format!(
        "calls of other domains purged in this list and in the exercise: {}; strays and calls of \
         nobody, purged for everyone: {} and {}",
        each.collect::<Vec<_>>().join(", "),
        list.first().map_or(0, nobody),
        exercise.first().map_or(0, nobody)
    )
}

/// The calls purged for each domain in a list alone.
pub(super) fn purged_by_list(list: &[Purged], names: &Names) -> String {
    let each = (0..).zip(list);
    let each = each.map(|(d, purged)| format!("{}: {}", names.domain(d), purged.by_domains));
    format!(
        "calls of other domains purged in this list: {}; strays and calls of nobody, purged for \
         everyone: {}",
        each.collect::<Vec<_>>().join(", "),
        list.first()
            .map_or(0, |purged| purged.calls - purged.by_domains)
    )
}
