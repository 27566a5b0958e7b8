//! Check 1: any words are taken without fault and finished; what breaks a rule is refused
//! by its code, and a refusal changes nothing.

use std::collections::BTreeMap;

use reference::calls::{cut, Call};
use reference::check_bytes;
use reference::influence::tables_before;
use reference::machine::refusal;
use reference::table::{
    endpoint_place, ENDPOINT_WORDS, INFO_PLACE, LOST_PLACE, NAME_PLACE, WAITING_PLACE,
};
use reference::words::to_bytes;

use super::{at_a_time, each_run, Checklist, Found, Judged, Runs};
use crate::cases::Case;
use crate::judging::checklist::basis::{by_number, Basis};
use crate::judging::checklist::shown;
use crate::judging::compare::{difference, refusal_difference, separate_run};
use crate::judging::exercise::Planned;
use crate::judging::report;
use crate::judging::variants::{case_of, entry_edges, Variant};
use crate::kernels::boundary::Kernel;
use crate::kernels::child;
use crate::kernels::lent::{Failure, Ran};
use crate::text::explain::counted;
use crate::text::input::Input;

/// How often runs ended with each number.
#[derive(Default)]
struct Ends([u64; 7]);

impl Ends {
    fn ran(&self) -> u64 {
        self.0[0]
    }

    fn refused(&self) -> u64 {
        self.0[1..].iter().sum()
    }

    fn in_words(&self) -> String {
        by_number((1..).zip(self.0[1..].iter().copied()))
    }
}

impl Checklist {
    pub(super) fn refusals(&self, runs: &Runs) -> Judged {
        Ok(Found {
            in_order: "each by its code with nothing changed, and all else finished",
            based_on: self.based_on(runs)?,
            not_shown: shown::numbers(&self.this_list().table, &self.all_calls()),
            shown: true,
        })
    }

    /// What the exercise and the list that was handed in stand for together.
    fn all_calls(&self) -> Basis {
        Basis::of(self.lists.iter().map(|list| &list.case))
    }

    /// What was refused and what ran; an error where it wasn't as it should.
    fn based_on(&self, runs: &Runs) -> Result<Vec<String>, String> {
        for (list, ran) in self.listed(runs) {
            if let Err(why) = ran {
                return Err(unfinished(&self.kernel, &list.what, &list.case, *why));
            }
        }
        let damaged = self.tried(&self.damaged, wrongly_ended)?;
        self.checked()?;
        let lists = [&self.scrambled[..], &self.entry_edges()].concat();
        let ends = self.tried(&lists, wrongly_ended)?;
        let mut progress = self.progress();
        for list in &self.lists {
            progress.step();
            let tried = self.tried(&stretches(list), wrongly_refused);
            if tried.is_err() {
                progress.clear();
            }
            tried?;
        }
        progress.clear();
        let calls = self.all_calls();
        Ok(vec![
            self.damaged_in_words(&damaged),
            format!(
                "{} scrambled, or at the limits of the entry and one word past them: {} refused ({}), {} run",
                counted(lists.len(), "list"),
                ends.refused(),
                ends.in_words(),
                ends.ran()
            ),
            format!(
                "{} refused in {} ({})",
                counted(calls.refused(), "call"),
                counted(self.lists.len(), "list"),
                calls.refused_in_words()
            ),
        ])
    }

    /// The exercise's lists on both sides of what the entry refuses.
    fn entry_edges(&self) -> Vec<Variant> {
        let each = self.exercise_lists().iter().flat_map(|list| {
            entry_edges(&input_of(&list.case)).map(|edge| Variant {
                what: format!("{}: {}", list.what, edge.what),
                ..edge
            })
        });
        each.collect()
    }

    /// How variants ended; the first thing that is wrong with one.
    fn tried(
        &self,
        variants: &[Variant],
        wrong: fn(&Case, &Ran) -> Option<String>,
    ) -> Result<Ends, String> {
        let cases: Vec<&Case> = variants.iter().map(|variant| &variant.case).collect();
        let (mut first, mut ends) = (None, Ends::default());
        each_run(&self.kernel, &cases, |number, ran| {
            let Variant { what, case } = &variants[number];
            first = match &ran {
                Err(why) => Some(unfinished(&self.kernel, what, case, *why)),
                Ok(ran) => wrong(case, ran).map(|why| format!("{what}: {why}")),
            };
            if let (Ok(ran), None) = (ran, &first) {
                ends.0[ran.outcome.code as usize] += 1;
            }
            first.is_none()
        });
        first.map_or(Ok(ends), Err)
    }

    /// The check of the damaged tables' images by themselves, and of the table's own with
    /// bytes missing or left over.
    fn checked(&self) -> Result<(), String> {
        let named = |variant: &Variant| (variant.what.clone(), to_bytes(&variant.case.table));
        let mut images: Vec<(String, Vec<u8>)> = self.damaged.iter().map(named).collect();
        let whole = [to_bytes(&self.this_list().table), vec![0; 4]].concat();
        let length = whole.len() - 4;
        for length in (0..4).chain(length - 3..length + 4) {
            let what = format!("the first {length} bytes of the table's image");
            images.push((what, whole[..length].to_vec()));
        }
        let lent: Vec<&[u8]> = images.iter().map(|(_, image)| &image[..]).collect();
        let checked = child::checks(&self.kernel, &lent, child::LIMIT);
        for (code, (what, image)) in checked.into_iter().zip(&images) {
            let should = check_bytes(image);
            let code = code.map_err(|why| format!("{what}: at the check of its image, {why}"))?;
            if code != should {
                return Err(format!(
                    "{what}: its image is checked with {code}, it should be {should}"
                ));
            }
        }
        Ok(())
    }

    /// The damaged tables: how they were refused, and why the others weren't.
    fn damaged_in_words(&self, ends: &Ends) -> String {
        let mut sound: BTreeMap<&str, u64> = BTreeMap::new();
        let table = &self.this_list().table;
        for Variant { case, .. } in &self.damaged {
            if reference::check_table(&case.table) == 0 {
                *sound
                    .entry(altered_in_words(table, &case.table))
                    .or_default() += 1;
            }
        }
        let sound: Vec<String> = sound
            .iter()
            .map(|(what, times)| format!("{times} with {what}"))
            .collect();
        format!(
            "{}: {} refused ({}), their images too; {} still sound and run, which is right, \
             since what was altered is sound too ({})",
            counted(self.damaged.len(), "damaged table"),
            ends.refused(),
            ends.in_words(),
            ends.ran(),
            sound.join(", ")
        )
    }
}

fn input_of(case: &Case) -> Input {
    Input {
        table: case.table.clone(),
        list: case.list.clone(),
    }
}

/// What is wrong with what a run refuses: the number that it ends with, a call's, or
/// something changed where it is refused.
fn wrongly_ended(case: &Case, ran: &Ran) -> Option<String> {
    match separate_run(case) {
        Ok(right) => refusal_difference(case, ran, &right),
        Err(why) => Some(why),
    }
}

/// What is wrong with a run of calls that are all refused: an answer, or a word that
/// was changed.
fn wrongly_refused(case: &Case, ran: &Ran) -> Option<String> {
    match separate_run(case) {
        Ok(right) => difference(case, ran, &right),
        Err(why) => Some(why),
    }
}

/// The stretches of refused calls in a list, each as a list by itself on the table as it
/// is by then.
fn stretches(list: &Planned) -> Vec<Variant> {
    let calls = cut(&list.case.list);
    let tables = tables_before(&list.case.table, &calls);
    let refused = |number: &usize| refusal(&tables[*number], &calls[*number]).is_some();
    let mut stretches = Vec::new();
    let mut next = 0;
    while next < calls.len() {
        let length = (next..calls.len()).take_while(refused).count();
        if length != 0 {
            let words = calls[next..next + length].iter().flat_map(Call::words);
            let case = case_of(&Input {
                table: tables[next].clone(),
                list: words.collect(),
            });
            let what = format!("{}, refused calls from {next} on", list.what);
            stretches.push(Variant { what, case });
        }
        next += length + 1;
    }
    stretches
}

/// What is said of a list that the kernel didn't come to the end of, with the words of the
/// first of its calls that the kernel stops at by itself, where there is one.
fn unfinished(kernel: &Kernel, what: &str, case: &Case, failure: Failure) -> String {
    let calls = cut(&case.list);
    let singles: Vec<Case> = match separate_run(case) {
        Ok(right) if right.outcome.code == 0 => {
            let tables = tables_before(&case.table, &calls).into_iter();
            let single = |(table, call): (Vec<u32>, &Call)| {
                let list = call.words();
                case_of(&Input { table, list })
            };
            tables.zip(&calls).map(single).collect()
        }
        _ => Vec::new(),
    };
    let (at, case) = match first_that_stops(kernel, &singles) {
        Some(number) => (format!(", call {number}"), &singles[number]),
        None => (String::new(), case),
    };
    let failed = report::failed(kernel, case, failure, child::LIMIT);
    format!("{what}{at}: {failed}")
}

fn first_that_stops(kernel: &Kernel, cases: &[Case]) -> Option<usize> {
    let cases: Vec<&Case> = cases.iter().collect();
    let mut start = 0;
    while start < cases.len() {
        let together = at_a_time(&cases[start..]);
        let runs = child::runs(kernel, &cases[start..start + together], child::LIMIT);
        if let Some(stopped) = runs.iter().position(Result::is_err) {
            return Some(start + stopped);
        }
        start += together;
    }
    None
}

/// What an altered table that is still sound has another one of.
fn altered_in_words(table: &[u32], altered: &[u32]) -> &'static str {
    let places = (0..table.len()).filter(|&place| table[place] != altered[place]);
    let mut parts: Vec<&str> = places.map(|place| part_in_words(table, place)).collect();
    parts.dedup();
    match parts.as_slice() {
        [] => "no word altered",
        [one] => one,
        _ => "several of these",
    }
}

fn part_in_words(table: &[u32], place: usize) -> &'static str {
    let first = endpoint_place(table, 0);
    if place < first {
        return "other rights";
    }
    match (place - first) % ENDPOINT_WORDS {
        NAME_PLACE => "another name",
        INFO_PLACE => "another owner or capacity",
        WAITING_PLACE => "another waiting count",
        LOST_PLACE => "another lost count",
        _ => "another message",
    }
}
