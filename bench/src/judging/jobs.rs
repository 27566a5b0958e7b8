//! What the instructions of the proved functions are counted of: fixed tables and lists,
//! drawn from one seed, and each function called on them.
//!
//! A job draws all that it needs when it is made, and calls nothing of the archive but
//! what it is named after.

use std::hint::black_box;

use reference::calls::MY_RIGHTS;
use reference::example::TABLE_T;
use reference::generate::call_word;
use reference::read;
use reference::table::domains;
use reference::turn_words::length;
use reference::words::to_bytes;
use reference::writer::to_columns;

use crate::cases::mixes::{mixes, Mix};
use crate::cases::workloads::largest_table;
use crate::judging::timing::proved;
use line::cases::tables::open_table;
use line::kernels::boundary::{
    component, potential, repair, who_reaches, Kernel, PROVED, PROVED_WRITER,
};
use line::kernels::layer::PROVED_LAYER;

/// The seed of the lists.
const SEED: u64 = 1;

/// The tables that lists run on, by their domains and endpoints.
const SIZES: [(usize, usize); 2] = [(4, 4), (16, 32)];

/// The lengths of lists in words, and how many there are of each.
const LENGTHS: [(usize, usize); 3] = [(8, 60), (64, 16), (4096, 1)];

/// Something to be done once, and how it is called.
pub struct Job {
    pub name: String,
    act: Box<dyn Fn()>,
}

impl Job {
    pub fn new(name: impl Into<String>, act: impl Fn() + 'static) -> Job {
        Job {
            name: name.into(),
            act: Box::new(act),
        }
    }
}

/// The function that is called after each job: callgrind ends a part of what it counts
/// where this one begins, and knows it by its name.
pub const AFTER_A_JOB: &str = "bench_job_is_done";

#[no_mangle]
#[inline(never)]
extern "C" fn bench_job_is_done() {
    black_box(());
}

/// Does each job once.
pub fn do_all(jobs: &[Job]) {
    for job in jobs {
        (job.act)();
        bench_job_is_done();
    }
}

/// All jobs: the checks, the runs by each proved kernel, and the other functions.
pub fn jobs() -> Vec<Job> {
    let checks = [
        check("table T", to_bytes(&TABLE_T)),
        check("n 16, m 32", to_bytes(&largest_table())),
    ];
    let runs = proved().flat_map(|kernel| runs(*kernel));
    checks.into_iter().chain(runs).chain(others()).collect()
}

fn check(table: &str, bytes: Vec<u8>) -> Job {
    Job::new(format!("table check, {table}"), move || {
        assert_eq!(PROVED.table_check(black_box(&bytes)), 0);
    })
}

/// The runs of a kernel: every mix at every length, on either table.
fn runs(kernel: Kernel) -> Vec<Job> {
    let mixes = SIZES.iter().flat_map(|&(n, m)| mixes(SEED, n, m));
    let jobs = mixes.flat_map(|mix| LENGTHS.map(|length| run(kernel, &mix, length)));
    jobs.collect()
}

/// The table is handed on from list to list, as where the time is measured by length.
fn run(kernel: Kernel, mix: &Mix, (words, count): (usize, usize)) -> Job {
    let lists = mix.first_lists(words, count);
    let first = mix.table.clone();
    let name = format!("{}, {}, {count} x {words} words", kernel.name, mix.name);
    Job::new(name, move || {
        let mut table = first.clone();
        let mut answers = vec![0; 3 * words];
        let mut holders = vec![0; domains(&first)];
        for list in &lists {
            let outcome = kernel.run(&mut table, list, &mut answers, &mut holders);
            assert_eq!(outcome.code, 0);
        }
    })
}

/// The functions beside the run and the check, on the largest table.
fn others() -> Vec<Job> {
    let (table, _) = open_table(16, 32);
    let holders = vec![0b1010_0101_0101_1010; 16];
    let (of_component, of_potential) = (table.clone(), table.clone());
    vec![
        Job::new("component, n 16, each domain", move || {
            assert!((0..16).all(|domain| component(&of_component, domain).0 == 0));
        }),
        Job::new("who reaches, n 16, each domain", move || {
            assert!((0..16).all(|domain| who_reaches(&holders, domain).0 == 0));
        }),
        Job::new("potential, n 16, everyone acts", move || {
            assert_eq!(potential(&of_potential, 0xFFFF, &mut [0; 256]), 0);
        }),
        mending(table),
        writing(),
        turns(4, 4),
        turns(16, 32),
    ]
}

/// Every seventh rights word is broken.
fn mending(sound: Vec<u32>) -> Job {
    Job::new("repair, n 16, m 32, each seventh right", move || {
        let mut table = sound.clone();
        for word in table[1..=256].iter_mut().step_by(7) {
            *word ^= 0x8000_0000;
        }
        assert_eq!(repair(&mut table, &mut [0; 1152]), (0, 37));
    })
}

/// The calls of a list of 4,096 words, of which a list is made again.
fn writing() -> Job {
    let mix = &mixes(SEED, 4, 4)[0];
    let list = mix.first_lists(4096, 1).remove(0);
    let columns: Vec<u32> = read(&list)
        .iter()
        .filter_map(to_columns)
        .flatten()
        .collect();
    Job::new("write, mixed, n 4, m 4, 4096 words", move || {
        let written = PROVED_WRITER(&columns, &mut [0; 4096]);
        assert_eq!(written, (0, 4096));
    })
}

/// Each domain hands in a call, and each is served.
fn turns(n: usize, m: usize) -> Job {
    let (sound, _) = open_table(n, m);
    Job::new(
        format!("hand in and turn, n {n}, m {m}, each domain"),
        move || {
            let mut table = sound.clone();
            let mut state = vec![0; length(n)];
            let (mut holders, mut answer) = (vec![0; n], [0; 3]);
            assert_eq!(PROVED_LAYER.begin(&table, &mut state, &mut holders), 0);
            for domain in 0..n {
                let call = [call_word(MY_RIGHTS, domain, 0, 0, 0)];
                let code = PROVED_LAYER.hand_in(&table, &mut state, domain as u32, &call);
                assert_eq!(code, 0);
            }
            for _ in 0..n {
                let said = (PROVED_LAYER.turn)(&mut table, &mut state, &mut holders, &mut answer);
                assert_eq!(said, 1 << 16);
            }
        },
    )
}

#[cfg(test)]
mod tests {
    use super::*;
    use std::collections::HashSet;

    #[test]
    fn every_job_can_be_done_and_has_a_name_of_its_own() {
        let jobs = jobs();
        do_all(&jobs);
        let names: HashSet<&str> = jobs.iter().map(|job| &job.name[..]).collect();
        assert_eq!(names.len(), jobs.len());
        assert!(names.contains("balkwizu-working, mixed, n 16, m 32, 16 x 64 words"));
    }

    #[test]
    fn the_marker_is_called_as_it_is_looked_for() {
        assert!(AFTER_A_JOB == stringify!(bench_job_is_done));
    }
}
