//! How long kernels take for the same thing: each in its turn, in many rounds, and of
//! these the median.

use std::hint::black_box;
use std::time::{Duration, Instant};

use reference::example::TABLE_T;
use reference::table::domains;
use reference::words::to_bytes;

use crate::cases::workloads::{largest_table, Workload};
use crate::kernels::for_tests::{words_check, HAS_WORDS_CHECK};
use crate::kernels::plain::KERNELS;
use line::kernels::boundary::{Kernel, PROVED};
use line::text::explain::counted;

/// How long one kernel is timed in one round, about: so short that it is seldom
/// interrupted, and so long that what came before it is soon forgotten.
pub const TURN: Duration = Duration::from_micros(300);

/// Does things with a kernel, those of a part; gives how long that took.
type Act<'a> = dyn Fn(&Kernel, Part) -> Duration + 'a;

/// Things that are gone through in turn, from the first again after the last: so many of
/// them, from one on.
#[derive(Debug, Clone, Copy)]
pub struct Part {
    from: usize,
    count: usize,
}

impl Part {
    pub fn of<'a, T>(&self, all: &'a [T]) -> impl Iterator<Item = &'a T> {
        all.iter().cycle().skip(self.from).take(self.count)
    }
}

/// Something to measure: how it is called, what ratio is aimed at, by whom it is done,
/// what is done, and how many units each of the things has that are gone through in turn.
pub struct Subject<'a> {
    pub name: String,
    pub goal: Option<f64>,
    pub units: Vec<usize>,
    pub kernels: Vec<Kernel>,
    pub act: Box<Act<'a>>,
}

impl Subject<'_> {
    fn aiming_at(self, goal: f64) -> Self {
        Subject {
            goal: Some(goal),
            ..self
        }
    }
}

/// The proved kernels of this program.
pub fn proved() -> impl Iterator<Item = &'static Kernel> {
    KERNELS.iter().filter(|kernel| !kernel.is_plain())
}

/// All that is measured on the workloads, and the check of two tables, over their bytes
/// and, where the program has it, over their words.
pub fn subjects(workloads: &[Workload]) -> Vec<Subject<'_>> {
    let tables = [
        ("table T", TABLE_T.to_vec(), 0.95),
        ("n 16, m 32", largest_table(), 1.05),
    ];
    let over_bytes = tables.iter().map(|(name, table, goal)| {
        checks_of(&format!("table check, {name}"), to_bytes(table)).aiming_at(*goal)
    });
    let with_words = tables.iter().filter(|_| HAS_WORDS_CHECK);
    let over_words =
        with_words.map(|(name, table, goal)| words_checks(name, table.clone()).aiming_at(*goal));
    let mut subjects: Vec<Subject> = over_bytes.chain(over_words).collect();
    for workload in workloads {
        subjects.push(rotating(workload));
        subjects.push(repeated(workload));
        subjects.push(entries(workload));
    }
    subjects
}

/// The check of a table image.
pub fn checks_of(name: &str, bytes: Vec<u8>) -> Subject<'static> {
    let name = format!("{name} ({} bytes)", bytes.len());
    checks(name, move |kernel| kernel.table_check(black_box(&bytes)))
}

/// The check of a table's words, which every run begins with.
fn words_checks(name: &str, table: Vec<u32>) -> Subject<'static> {
    let name = format!("table check, {name} ({} words)", table.len());
    checks(name, move |kernel| words_check(kernel, black_box(&table)))
}

/// Checks that accept. Nothing is written, so nothing is reset. There is one check for all
/// proved runs.
fn checks(name: String, code: impl Fn(&Kernel) -> u32 + 'static) -> Subject<'static> {
    let own = |kernel: &&Kernel| kernel.is_plain() || kernel.name == PROVED.name;
    Subject {
        name,
        goal: None,
        units: vec![1],
        kernels: KERNELS.iter().filter(own).copied().collect(),
        act: Box::new(move |kernel, part| {
            let start = Instant::now();
            for _ in 0..part.count {
                assert_eq!(code(kernel), 0);
            }
            start.elapsed()
        }),
    }
}

/// Whole runs of all lists of a workload, one after another.
pub fn rotating(workload: &Workload) -> Subject<'_> {
    let how = format!("{} in rotation", counted(workload.lists.len(), "list"));
    runs(workload, &workload.lists, &how).aiming_at(workload.goal)
}

/// Whole runs of its first list, again and again.
fn repeated(workload: &Workload) -> Subject<'_> {
    runs(workload, &workload.lists[..1], "one list repeated")
}

/// Whole runs of lists. The table and the answers are reset before each run, outside the
/// timed part.
fn runs<'a>(workload: &'a Workload, lists: &'a [Vec<u32>], how: &str) -> Subject<'a> {
    Subject {
        name: format!("{}, {how}", workload.name),
        goal: None,
        units: lists
            .iter()
            .map(|list| reference::cut(list).len())
            .collect(),
        kernels: KERNELS.to_vec(),
        act: Box::new(move |kernel, part| {
            let mut table = workload.table.clone();
            let mut answers = vec![0; 3 * lists[0].len()];
            let mut holders = vec![0; domains(&workload.table)];
            let mut timed = Duration::ZERO;
            for list in part.of(lists) {
                table.copy_from_slice(&workload.table);
                answers.fill(0);
                let start = Instant::now();
                let outcome = kernel.run(&mut table, list, &mut answers, &mut holders);
                timed += start.elapsed();
                assert_eq!(outcome.code, 0);
            }
            timed
        }),
    }
}

/// The entry alone: runs of an empty list on the workload's table. Nothing is
/// altered, so nothing is reset.
fn entries(workload: &Workload) -> Subject<'_> {
    Subject {
        name: format!("its entry alone ({} table words)", workload.table.len()),
        goal: None,
        units: vec![1],
        kernels: KERNELS.to_vec(),
        act: Box::new(move |kernel, part| {
            let mut table = workload.table.clone();
            let mut answers = [0; 3];
            let mut holders = vec![0; domains(&workload.table)];
            let start = Instant::now();
            for _ in 0..part.count {
                let outcome = kernel.run(&mut table, &[], &mut answers, &mut holders);
                assert_eq!(outcome.code, 0);
            }
            start.elapsed()
        }),
    }
}

/// How many things a turn has, so that it lasts about as long as it should with the
/// slowest kernel. The least of a few turns counts, since any may be interrupted.
fn count_for(subject: &Subject) -> usize {
    let mut count = 1;
    loop {
        let part = Part { from: 0, count };
        let least = |kernel: &Kernel| (0..5).map(|_| (subject.act)(kernel, part)).min();
        let slowest = subject.kernels.iter().filter_map(least).max();
        let slowest = slowest.unwrap_or(TURN);
        if 4 * slowest >= TURN {
            let wanted = count as u128 * TURN.as_nanos() / slowest.as_nanos();
            return wanted.max(1) as usize;
        }
        count *= 4;
    }
}

/// Seconds for one unit of a subject, in each round, by each kernel.
pub struct Measured(Vec<(Kernel, Vec<f64>)>);

impl Measured {
    /// All kernels take turns in each of so many rounds, on the same things. The next
    /// round goes on with the things after these.
    pub fn of(subject: &Subject, rounds: usize) -> Measured {
        let kernels = &subject.kernels;
        let count = count_for(subject);
        let mut seconds = vec![Vec::with_capacity(rounds); kernels.len()];
        for round in 0..rounds {
            let from = round * count % subject.units.len();
            let part = Part { from, count };
            let units: usize = part.of(&subject.units).sum();
            for turn in 0..kernels.len() {
                // Who begins goes round, so that nobody always follows the same one.
                let which = (turn + round) % kernels.len();
                let timed = (subject.act)(&kernels[which], part).as_secs_f64();
                seconds[which].push(timed / units as f64);
            }
        }
        Measured(kernels.iter().copied().zip(seconds).collect())
    }

    /// The kernels that were measured.
    pub fn kernels(&self) -> impl Iterator<Item = &Kernel> {
        self.0.iter().map(|(kernel, _)| kernel)
    }

    fn rounds(&self, name: &str) -> Option<&[f64]> {
        let own = self.0.iter().find(|(kernel, _)| kernel.name == name);
        own.map(|(_, seconds)| &seconds[..])
    }

    /// The seconds that a kernel takes, where it was measured.
    pub fn seconds(&self, name: &str) -> Option<f64> {
        Some(median(self.rounds(name)?.to_vec()))
    }

    /// The time of one kernel over another's, round by round.
    pub fn ratio(&self, name: &str, other: &str) -> Option<f64> {
        let pairs = self.rounds(name)?.iter().zip(self.rounds(other)?);
        Some(median(pairs.map(|(own, other)| own / other).collect()))
    }

    /// The name of the plain C kernel that was faster.
    pub fn faster_plain(&self) -> &'static str {
        let plain = self.0.iter().filter(|(kernel, _)| kernel.is_plain());
        let medians = plain.map(|(kernel, seconds)| (kernel, median(seconds.clone())));
        let faster = medians.min_by(|(_, one), (_, other)| one.total_cmp(other));
        faster.expect("there is a plain C kernel").0.name
    }
}

/// The figure in the middle, or between the two that are.
pub fn median(mut figures: Vec<f64>) -> f64 {
    figures.sort_by(f64::total_cmp);
    let (low, high) = ((figures.len() - 1) / 2, figures.len() / 2);
    (figures[low] + figures[high]) / 2.0
}

#[cfg(test)]
mod tests {
    use super::*;
    use std::cell::{Cell, RefCell};

    use crate::kernels::plain::PLAIN_GCC;

    #[test]
    fn the_median_is_in_the_middle() {
        assert_eq!(median(vec![3.0, 1.0, 2.0]), 2.0);
        assert_eq!(median(vec![4.0, 2.0]), 3.0);
        assert_eq!(median(vec![5.0]), 5.0);
    }

    #[test]
    fn ratios_are_taken_round_by_round() {
        let slow = PLAIN_GCC.with_run("plain-slow", |_, _, _, _| 0);
        let measured = Measured(vec![
            (PROVED, vec![3.0, 30.0, 300.0]),
            (PLAIN_GCC, vec![1.0, 10.0, 100.0]),
            (slow, vec![2.0, 20.0, 99.0]),
        ]);
        assert_eq!(measured.ratio("balkwizu", "plain-gcc"), Some(3.0));
        assert_eq!(measured.faster_plain(), "plain-gcc");
        assert_eq!(measured.ratio("balkwizu", "plain-clang"), None);
        assert_eq!(measured.seconds("plain-slow"), Some(20.0));
    }

    /// Something to be measured, of so many units each.
    fn subject<'a>(
        units: &[usize],
        kernels: &[Kernel],
        act: impl Fn(&Kernel, Part) -> Duration + 'a,
    ) -> Subject<'a> {
        Subject {
            name: String::new(),
            goal: None,
            units: units.to_vec(),
            kernels: kernels.to_vec(),
            act: Box::new(act),
        }
    }

    #[test]
    fn every_kernel_does_the_same_so_often_that_it_can_be_timed() {
        let waits = subject(&[2; 7], &[PROVED, PLAIN_GCC], |kernel, part| {
            let each = if kernel.is_plain() { 10 } else { 20 };
            Duration::from_micros(each) * part.count as u32
        });
        assert_eq!(count_for(&waits), 15);
        let measured = Measured::of(&waits, 3);
        assert!((measured.seconds("balkwizu").unwrap() - 10e-6).abs() < 1e-9);
        assert!((measured.ratio("balkwizu", "plain-gcc").unwrap() - 2.0).abs() < 1e-9);
    }

    #[test]
    fn a_turn_that_is_interrupted_makes_the_others_no_shorter() {
        let turns = Cell::new(0);
        let interrupted = subject(&[1], &[PROVED], |_, part| {
            turns.set(turns.get() + 1);
            let interrupted = Duration::from_millis(if turns.get() % 3 == 0 { 4 } else { 0 });
            interrupted + Duration::from_nanos(100) * part.count as u32
        });
        assert_eq!(count_for(&interrupted), 3000);
    }

    #[test]
    fn every_kernel_goes_through_the_same_things_one_after_another() {
        let gone_through = RefCell::new(Vec::new());
        let all = [10, 20, 30, 40, 50];
        let things = subject(&all, &[PROVED, PLAIN_GCC], |kernel, part| {
            let things = part.of(&all).copied().collect::<Vec<_>>();
            gone_through.borrow_mut().push((kernel.name, things));
            Duration::from_micros(100) * part.count as u32
        });
        Measured::of(&things, 2);
        let gone_through = gone_through.borrow();
        let last = &gone_through[gone_through.len() - 4..];
        assert_eq!(last[0], ("balkwizu", vec![10, 20, 30]));
        assert_eq!(last[1], ("plain-gcc", vec![10, 20, 30]));
        assert_eq!(last[2], ("plain-gcc", vec![40, 50, 10]));
        assert_eq!(last[3], ("balkwizu", vec![40, 50, 10]));
    }
}
