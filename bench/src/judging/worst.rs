//! The largest counts of instructions that were found, function by function, and what
//! include/balkwizu.h allows each: linear in the words of a list, or in the calls to be
//! written, and one number where neither is asked for.

use std::collections::HashMap;

use reference::calls::SEND;
use reference::generate::call_word;
use reference::table::domains;
use reference::turn_words::length;
use reference::words::to_bytes;
use reference::writer::to_columns;
use reference::{cut, read};

use crate::cases::worst::{broken, calls, holders, largest, spreading, table_of, Calls, SIZES};
use crate::judging::instructions::Figure;
use crate::judging::jobs::Job;
use crate::judging::timing::proved;
use line::cases::tables::second;
use line::kernels::boundary::{
    component, could_influence, potential, repair, single, who_reaches, Kernel, PROVED,
    PROVED_WRITER,
};
use line::kernels::layer::PROVED_LAYER;

/// The lengths of lists in words: none, either side of where the run by length changes over,
/// and the most.
const LENGTHS: [usize; 4] = [0, 127, 128, 4096];

/// All jobs. Several have one name: the largest count of these is what is found.
pub fn worst_jobs() -> Vec<Job> {
    let kinds: Vec<Calls> = SIZES.iter().flat_map(|&(n, m)| calls(n, m)).collect();
    let mut jobs: Vec<Job> = Vec::new();
    for kernel in proved() {
        jobs.extend(kinds.iter().flat_map(|kind| runs(*kernel, kind)));
    }
    jobs.extend(SIZES.iter().flat_map(|&(n, m)| of_table(&largest(n, m))));
    jobs.extend(spreading().iter().flat_map(|rights| questions(rights)));
    jobs.extend([true, false].map(|whole| mend(&broken(whole))));
    jobs.extend(kinds.iter().filter_map(write));
    jobs.extend(kinds.iter().map(step));
    jobs.extend(kinds.iter().flat_map(|kind| [turn(kind, 0), turn(kind, 1)]));
    jobs
}

/// A question about words that are lent, and the code that answers it.
type Ask = fn(&[u32]) -> u32;

fn asked(name: &str, words: &[u32], code: u32, ask: Ask) -> Job {
    let words = words.to_vec();
    Job::new(name, move || assert_eq!(ask(&words), code))
}

/// The runs of a kind of calls by a kernel, the long one by the name of the kind. It is made
/// on fifteen domains alone, which cost more.
fn runs(kernel: Kernel, calls: &Calls) -> Vec<Job> {
    let name = kernel.name.replace('-', "_");
    let name = name.replacen("balkwizu", "balkwizu_run", 1);
    let run = |&words: &usize| {
        let (list, first) = (calls.list(words), calls.table.clone());
        let long = words == 4096;
        let kind = if long { calls.kind } else { "any calls" };
        Job::new(format!("{name} {words}: {kind}"), move || {
            let (mut table, mut answers) = (first.clone(), vec![0; 3 * words]);
            let mut holders = vec![0; domains(&first)];
            let outcome = kernel.run(&mut table, &list, &mut answers, &mut holders);
            assert_eq!(outcome.code, 0);
        })
    };
    let most = if domains(&calls.table) == 15 { 4 } else { 3 };
    LENGTHS[..most].iter().map(run).collect()
}

/// What is done with a table alone: the check of it, of one that is refused at its last word
/// and of one whose last name repeats that before it, and the beginning of turns.
fn of_table(table: &[u32]) -> [Job; 6] {
    let check: Ask = |table| PROVED.table_check(&to_bytes(table));
    let begin: Ask = |table| {
        let n = domains(table);
        PROVED_LAYER.begin(table, &mut vec![7; length(n)], &mut vec![0; n])
    };
    let (mut last, mut named) = (table.to_vec(), table.to_vec());
    last[table.len() - 1] ^= 1 << 31;
    named[table.len() - 12] = named[table.len() - 24];
    [
        asked("balkwizu_table_check: accepted", table, 0, check),
        asked(
            "balkwizu_table_check: refused at the last word",
            &last,
            5,
            check,
        ),
        asked(
            "balkwizu_table_check: refused for the last name",
            &named,
            5,
            check,
        ),
        asked("balkwizu_turns_begin: accepted", table, 0, begin),
        asked("balkwizu_hand_in: room for it", table, 0, |table| {
            hand_in(table, 14)
        }),
        asked("balkwizu_hand_in: no room", table, 37, |table| {
            hand_in(table, 15)
        }),
    ]
}

/// The last domain hands in a call of two words, where so many are pending.
fn hand_in(table: &[u32], pending: u32) -> u32 {
    let n = domains(table);
    let mut state = vec![7; length(n)];
    state[length(n - 1)] = pending;
    let words = [call_word(SEND, n - 1, 0, 0, 0), second(9)];
    PROVED_LAYER.hand_in(table, &mut state, n as u32 - 1, &words)
}

/// Questions about rights among sixteen domains, where everyone acts.
fn questions(rights: &[u32]) -> [Job; 4] {
    let table = table_of(rights, 16, 32);
    let reaches: Ask = |holders| who_reaches(holders, 0).0;
    let spread: Ask = |table| potential(table, 0xFFFF, &mut [0; 256]);
    let influence: Ask = |table| could_influence(table, 0xFFFF, 0).0;
    [
        asked("balkwizu_component: chains", &table, 0, |table| {
            component(table, 0).0
        }),
        asked("balkwizu_who_reaches: chains", &holders(rights), 0, reaches),
        asked("balkwizu_potential: grants that spread", &table, 0, spread),
        asked(
            "balkwizu_could_influence: grants that spread",
            &table,
            0,
            influence,
        ),
    ]
}

fn mend(table: &[u32]) -> Job {
    asked(
        "balkwizu_repair: all that can be mended",
        table,
        576 << 16,
        |table| {
            let (code, altered) = repair(&mut table.to_vec(), &mut [0; 1152]);
            code | altered << 16
        },
    )
}

/// The calls of a list of 4,096 words, where they can be written; their number is what the
/// function is given.
fn write(calls: &Calls) -> Option<Job> {
    let whole = read(&calls.list(4096));
    let rows: Vec<_> = whole.iter().filter_map(to_columns).collect();
    let (count, columns) = (rows.len(), rows.concat());
    let name = format!("balkwizu_write {count}: {}", calls.kind);
    let act = move || assert_eq!(PROVED_WRITER(&columns, &mut [0; 4096]).0, 0);
    (calls.kind != "refused").then(|| Job::new(name, act))
}

/// The first call of a kind alone.
fn step(calls: &Calls) -> Job {
    let (first, call) = (calls.table.clone(), cut(&calls.words)[0].words().to_vec());
    Job::new(format!("balkwizu_step: {}", calls.kind), move || {
        let (mut table, mut holders) = (first.clone(), vec![0; domains(&first)]);
        assert_eq!(single(&mut table, &mut holders, &call, &mut [0; 3]), 0);
    })
}

/// A turn at which sixteen words of the kind are pending: of every domain, or of the last
/// alone, which is found after all others.
fn turn(calls: &Calls, others: usize) -> Job {
    let (first, words) = (calls.table.clone(), calls.list(16));
    Job::new(format!("balkwizu_turn: {}", calls.kind), move || {
        let n = domains(&first);
        let (mut table, mut state) = (first.clone(), vec![0; length(n)]);
        for domain in others * (n - 1)..n {
            state[length(domain)] = 16;
            state[length(domain) + 1..][..16].copy_from_slice(&words);
        }
        let said = (PROVED_LAYER.turn)(&mut table, &mut state, &mut vec![0; n], &mut [0; 3]);
        assert_eq!(said, 1 << 16);
    })
}

/// The largest of the figures that have one name, in the order of the names.
pub fn largest_of(figures: Vec<Figure>) -> Vec<Figure> {
    let mut found: Vec<Figure> = Vec::new();
    for one in figures {
        match found.iter_mut().find(|other| other.name == one.name) {
            Some(other) if other.instructions >= one.instructions => {}
            Some(other) => *other = one,
            None => found.push(one),
        }
    }
    found
}

/// What a header allows by function: a number, and how many more for each word or call.
fn allowed(header: &str) -> HashMap<String, (u64, u64)> {
    let macros = header.split("\n#define ").filter_map(|text| {
        let (name, rest) = text.split_once("_INSTRUCTIONS")?;
        let numbers = rest
            .lines()
            .next()?
            .split(|sign: char| !sign.is_ascii_digit());
        let mut numbers = numbers.filter_map(|digits| digits.parse().ok());
        Some((
            name.to_lowercase(),
            (numbers.next()?, numbers.next().unwrap_or(0)),
        ))
    });
    macros.collect()
}

/// The figures that pass what a header allows, or for which it allows nothing, each in words.
pub fn beyond(header: &str, figures: &[Figure]) -> Vec<String> {
    let allowed = allowed(header);
    let said = |one: &Figure| {
        let given = one.name.split(':').next().unwrap_or_default();
        let (function, count) = given.split_once(' ').unwrap_or((given, "0"));
        let most = allowed.get(function).zip(count.parse::<u64>().ok());
        let most = most.map_or(0, |((first, each), count)| first + each * count);
        let Figure {
            name, instructions, ..
        } = one;
        (*instructions > most)
            .then(|| format!("{name}: {instructions} instructions, {most} allowed"))
    };
    figures.iter().filter_map(said).collect()
}

#[cfg(test)]
mod tests {
    use super::*;
    use crate::judging::jobs::do_all;

    #[test]
    fn every_job_can_be_done_and_every_function_has_one() {
        let jobs = worst_jobs();
        do_all(&jobs);
        let exported = include_str!("../../../line/build.rs")
            .lines()
            .map(str::trim);
        let exported = exported.filter(|line| line.starts_with("\"balkwizu_"));
        let exported = exported.map(|line| line.trim_matches(|sign| "\",".contains(sign)));
        let counted = |name: &&str| !name.contains("test_") && !name.ends_with("version");
        for function in exported.filter(counted) {
            let has = |job: &Job| job.name.split([' ', ':']).next() == Some(function);
            assert!(jobs.iter().any(has), "{function}");
        }
    }

    fn figure(name: &str, instructions: u64) -> Figure {
        let (name, memory) = (name.to_string(), 0);
        Figure {
            name,
            instructions,
            memory,
        }
    }

    #[test]
    fn what_a_header_allows_is_a_number_or_grows_by_the_word() {
        let header =
            "\n#define A_RUN_INSTRUCTIONS(words) (90u + 7u * (words))\n#define B_INSTRUCTIONS 5u\n";
        let said = |name: &str, instructions| beyond(header, &[figure(name, instructions)]).len();
        assert_eq!([said("a_run 10: x", 160), said("a_run 10: x", 161)], [0, 1]);
        assert_eq!(
            [said("b: x", 5), said("b: x", 6), said("c: x", 1)],
            [0, 1, 1]
        );
    }

    #[test]
    fn of_figures_of_one_name_the_largest_is_found() {
        let found = largest_of(vec![
            figure("x", 3),
            figure("y", 9),
            figure("x", 5),
            figure("x", 4),
        ]);
        assert_eq!(found, [figure("x", 5), figure("y", 9)]);
    }
}
