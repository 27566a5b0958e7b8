//! `bench speed`: the proved kernel's speed beside the plain C kernel's, in one
//! run, as ratios.

use std::ffi::OsString;
use std::fs;
use std::path::Path;
use std::time::SystemTime;

use crate::cases::mixes::{mixes, Mix};
use crate::cases::workloads::{by_kind, workloads, Workload};
use crate::judging::growth;
use crate::judging::lengths::{at, measured_crossing, working_is_slower, LENGTHS};
use crate::judging::one_after_another::first_wrong;
use crate::judging::rows::{median_row, read, side_by_side, Row, Run, Table};
use crate::judging::timing::{rotating, subjects, Measured, Subject};
use crate::judging::turn_times;
use crate::pictures::{merged, plot};
use line::args::Options;
use line::clock;
use line::kernels::boundary::WORKING;
use line::output::{self, say};
use line::text::input::read_text;

pub const HELP: &str = "\
bench speed [--by-kind] [--lengths] [--growth] [--turns] [--all] [--rounds N]
            [--seed S] [--record OUT] [--svg OUT]
bench speed --merge RECORD.. [--svg OUT]

Measures the proved kernel, by each of its runs, beside the plain C kernel of
bench/c as gcc -O3 and, where there is one, clang -O3 make it, and prints a
Markdown table: table checks over bytes and over words, and calls on lists of
4,096 words of four mixes, sixty different lists of each in rotation and one
list repeated, whose branches the predictor learns.

  --by-kind     lists in rotation with one kind of call each, or two that undo
                each other, on a small table and on the largest
  --lengths     the time of one run by the length of its list, from one word to
                4,096, on these two tables, and from which length on the run in
                the working layout is faster than the other
  --growth      the time of a run by the length of its list in finer steps, by
                the number of domains and by that of endpoints, and that of a
                check by these two
  --turns       what a turn of the proved layer costs, idle and serving, by the
                table's size, and how much of it is the check of the table
  --all         all five tables
  --rounds N    1 to 100,000 (default 301)
  --seed S      the seed that the lists are drawn from (default 1)
  --record OUT  keeps the medians in a file, with the time; not those of turns
  --svg OUT     draws --growth, which it implies
  --merge       prints the medians over runs that were kept, with the least and
                the most, and which goals were met each time, missed each time,
                or met in some; with --svg draws --growth by these medians

All kernels take turns in each of N rounds. A figure is the median of the
rounds, in nanoseconds: of a call, a check, an entry (a run of the empty list)
or, by length and growth, of a whole run. A ratio is the median of the rounds'
ratios, the proved kernel's time over that of the faster plain C kernel of the
row: above 1 the proved kernel is slower. A goal is for the check, or for the
run that is meant for long lists, and is shown for each proved run. The table
and the answers are reset before each run of a list, outside the timed part; by
length and growth the table is passed on from list to list and reset before each
turn of a kernel. Every kernel's runs are first compared with the reference. The
plain C checks words as the bytes that they are in memory; the proved check of
words is in an archive of its own (`firmware/make-archive test_check_export`),
which the program is built with where it is there, and its rows are left out
where it isn't.

Runs that are merged must be of one program, processor, seed and number of
rounds, and made at different times.

Exit status: 0 measured; 1 a kernel's run or a turn differs; 2 bad usage, or a
file that can't be read or written.
";

const ROUNDS: u64 = 301;
const ROUNDS_MAX: u64 = 100_000;

/// The tables on which lengths are measured, by their domains and endpoints.
const SIZES: [(usize, usize); 2] = [(4, 4), (16, 32)];

/// So many lists of each length are compared beforehand.
const COMPARED: usize = 60;

const TABLES: [&str; 4] = ["--by-kind", "--lengths", "--growth", "--turns"];

/// The command: whether every kernel's runs are right, so that its speed counts.
pub fn command(line: &[OsString]) -> Result<bool, String> {
    let flags = [&TABLES[..], &["--all", "--merge"]].concat();
    let options = Options::parse(line, &["--rounds", "--seed", "--record", "--svg"], &flags)?;
    may_write(&options)?; // known before all is measured
    if options.has("--merge") {
        return merge(&options);
    }
    options.no_file()?;
    let svg = options.path("--svg").is_some();
    let mut session = Session {
        rounds: options.within("--rounds", ROUNDS, ROUNDS_MAX)?,
        seed: options.number("--seed")?.unwrap_or(1),
        rows: Vec::new(),
        notes: String::new(),
    };
    let time = clock::in_utc(SystemTime::now());
    let asked = |flag: &str| options.has("--all") || options.has(flag) || flag == "--growth" && svg;
    if let Err(why) = session.measure(asked) {
        say!("{why}");
        return Ok(false);
    }
    let notes = std::mem::take(&mut session.notes);
    let run = session.run(time)?;
    if let Some(out) = options.path("--record") {
        output::write_file(out, &run.to_string())?;
    }
    print(&[run], &options)?;
    output::write(notes.as_bytes());
    Ok(true)
}

/// That what is measured can be written where it is to go.
fn may_write(options: &Options) -> Result<(), String> {
    let (record, svg) = (options.path("--record"), options.path("--svg"));
    let read: Vec<&Path> = options.files.iter().map(|file| &**file).collect();
    for (option, out) in [("--record", record), ("--svg", svg)] {
        out.map_or(Ok(()), |out| output::may_write(option, out, &read))?;
    }
    output::may_write_both(("--record", record), ("--svg", svg))?;
    let with_rows = ["--all", "--by-kind", "--lengths", "--growth"];
    let turns_alone = options.has("--turns") && !with_rows.iter().any(|flag| options.has(flag));
    match record.is_some() && svg.is_none() && turns_alone {
        true => Err("the table of turns alone can't be kept".to_string()),
        false => Ok(()),
    }
}

/// Prints the tables of runs, and draws what grows where that is asked for.
fn print(runs: &[Run], options: &Options) -> Result<(), String> {
    let rows = side_by_side(runs)?;
    output::write(merged::tables(runs, &rows).as_bytes());
    let Some(out) = options.path("--svg") else {
        return Ok(());
    };
    let grows = rows.iter().filter(|like| like[0].table == Table::Growth);
    let medians: Vec<Row> = grows.map(|like| median_row(like)).collect();
    match medians.is_empty() {
        true => Err("no run with --growth is given, so there is nothing to draw".to_string()),
        false => output::write_file(out, &plot::plot(&medians.iter().collect::<Vec<_>>())),
    }
}

/// Prints the medians over runs that were kept.
fn merge(options: &Options) -> Result<bool, String> {
    let flags = [&TABLES[..], &["--all"]].concat();
    let valued = ["--rounds", "--seed", "--record"];
    if flags.iter().any(|flag| options.has(flag))
        || valued.iter().any(|it| options.text(it).is_some())
    {
        return Err("--merge takes the files of runs and --svg, nothing else".to_string());
    }
    let runs = options.files.iter().map(|file| read_run(file));
    print(&runs.collect::<Result<Vec<Run>, String>>()?, options)?;
    Ok(true)
}

fn read_run(file: &Path) -> Result<Run, String> {
    let text = read_text(file, "`bench speed --record` writes one")?;
    read(&text).map_err(|why| format!("cannot read {}: {why}", output::shown(file)))
}

/// A mark of this program, so that runs of different ones aren't merged: an FNV hash of
/// its bytes.
fn mark() -> Result<String, String> {
    let program = std::env::current_exe().and_then(fs::read);
    let bytes = program.map_err(|why| format!("cannot read this program: {why}"))?;
    let add = |hash: u64, byte: &u8| (hash ^ u64::from(*byte)).wrapping_mul(0x0100_0000_01B3);
    Ok(format!(
        "{:016x}",
        bytes.iter().fold(0xCBF2_9CE4_8422_2325, add)
    ))
}

/// The processor's name, where the system has it.
fn processor() -> String {
    let info = fs::read_to_string("/proc/cpuinfo").unwrap_or_default();
    let line = info.lines().find(|line| line.starts_with("model name"));
    let name = line.and_then(|line| line.split_once(": "));
    name.map_or("unknown".to_string(), |(_, name)| name.to_string())
}

/// That every kernel's runs of the lists of workloads are right.
fn right(workloads: &[Workload]) -> Result<(), String> {
    let wrong = |one: &Workload| first_wrong(&one.name, &one.table, &one.lists);
    workloads.iter().find_map(wrong).map_or(Ok(()), Err)
}

/// The same of the first lists of a length.
fn right_at(mix: &Mix, words: usize) -> Result<(), String> {
    let lists = mix.lists(words);
    let few = lists.len().min(COMPARED);
    first_wrong(&mix.name, &mix.table, &lists[..few]).map_or(Ok(()), Err)
}

/// What is measured with, the rows so far, and what is printed after them.
struct Session {
    seed: u64,
    rounds: usize,
    rows: Vec<Row>,
    notes: String,
}

impl Session {
    /// Measures the tables that are asked for, or the first where none is; an error where
    /// something isn't right, so that its speed doesn't count.
    fn measure(&mut self, asked: impl Fn(&str) -> bool) -> Result<(), String> {
        let [kinds, lengths, growth, turns] = TABLES.map(&asked);
        if asked("--all") || !(kinds || lengths || growth || turns) {
            let all = workloads(self.seed);
            right(&all)?;
            subjects(&all)
                .iter()
                .for_each(|one| self.subject(Table::Workloads, one));
        }
        if kinds {
            let all = by_kind(self.seed);
            right(&all)?;
            all.iter()
                .for_each(|one| self.subject(Table::Kinds, &rotating(one)));
        }
        if lengths {
            self.lengths()?;
        }
        if growth {
            self.growth()?;
        }
        if turns {
            self.turns()?;
        }
        Ok(())
    }

    /// The rows as a run to be kept.
    fn run(self, time: String) -> Result<Run, String> {
        let made = [
            ("processor", processor()),
            ("plain C by", env!("PLAIN_COMPILERS").to_string()),
            ("kernel", line::reports::facts::ARCHIVE.to_string()),
            ("program", mark()?),
            ("rounds", self.rounds.to_string()),
            ("seed", self.seed.to_string()),
        ];
        let made = made.map(|(name, what)| (name.to_string(), what)).to_vec();
        let rows = self.rows;
        Ok(Run { time, made, rows })
    }

    fn subject(&mut self, table: Table, subject: &Subject) {
        let measured = Measured::of(subject, self.rounds);
        let row = Row::of(table, &subject.name, None, &measured);
        self.rows.push(row.with_goal(subject.goal));
    }

    /// The table of lengths, and where the two proved runs cross.
    fn lengths(&mut self) -> Result<(), String> {
        for mix in SIZES.iter().flat_map(|&(n, m)| mixes(self.seed, n, m)) {
            LENGTHS
                .iter()
                .try_for_each(|&words| right_at(&mix, words))?;
            let slower = LENGTHS.map(|words| {
                let measured = at(&mix, words, self.rounds);
                let row = Row::of(Table::Lengths, &mix.name, Some(words), &measured);
                self.rows.push(row);
                working_is_slower(&measured)
            });
            let crossing = measured_crossing(&mix, slower, self.rounds);
            let (name, working) = (&mix.name, WORKING.name);
            self.notes += &format!("- {name}: {working} is the faster of the two {crossing}\n");
        }
        Ok(())
    }

    /// The table of what grows.
    fn growth(&mut self) -> Result<(), String> {
        for series in growth::series(self.seed) {
            series
                .runs()
                .try_for_each(|(mix, words)| right_at(mix, words))?;
            for (place, measured) in series.measured(self.rounds) {
                let row = Row::of(Table::Growth, &series.name, Some(place), &measured);
                self.rows.push(row);
            }
        }
        Ok(())
    }

    fn turns(&mut self) -> Result<(), String> {
        let sizes = turn_times::sizes();
        sizes
            .iter()
            .find_map(turn_times::first_wrong)
            .map_or(Ok(()), Err)?;
        let rows = sizes
            .iter()
            .map(|size| turn_times::row(size, self.rounds) + "\n");
        let rows: String = rows.collect();
        self.notes += &format!("\n{}\n{rows}\n{}\n", turn_times::HEAD, turn_times::FOOT);
        Ok(())
    }
}

#[cfg(test)]
mod tests {
    use super::*;

    /// Nothing is measured, and no file is emptied, where what is asked for can't be done.
    #[test]
    fn what_cannot_be_measured_or_kept_is_refused_first() {
        let folder = line::scratch::Folder::make("speed").unwrap();
        let file = folder.path().join("run");
        fs::write(&file, "kept").unwrap();
        let refused = |line: &[&str]| {
            let line: Vec<OsString> = line.iter().map(OsString::from).collect();
            command(&line).unwrap_err()
        };
        let run = file.to_str().unwrap();
        assert!(refused(&["--record", run, "--rounds", "0"]).ends_with("not 0"));
        assert!(refused(&["--rounds", "100001"]).contains("1 to 100000"));
        assert!(refused(&["--record", run, "--svg", run]).contains("a file each"));
        assert!(refused(&["--turns", "--record", run]).contains("turns alone"));
        assert!(refused(&["--merge", run, "--svg", run]).contains("overwrite"));
        assert_eq!(fs::read_to_string(&file).unwrap(), "kept");
    }

    #[test]
    fn a_run_is_kept_with_all_that_it_was_made_with() {
        let session = |rows| Session {
            seed: 7,
            rounds: 3,
            rows,
            notes: String::new(),
        };
        let row = crate::judging::rows::tests::row("a", None, [2.0, 1.0]);
        let run = session(vec![row]).run("now".to_string()).unwrap();
        assert_eq!(run.made.len(), 6);
        assert!(run.made.contains(&("seed".to_string(), "7".to_string())));
        assert_eq!(read(&run.to_string()), Ok(run));
    }

    #[test]
    fn every_kernel_is_right_on_every_workload_and_mix() {
        assert_eq!(right(&workloads(1)), Ok(()));
        assert_eq!(right(&by_kind(1)), Ok(()));
        for mix in SIZES.iter().flat_map(|&(n, m)| mixes(2, n, m)) {
            assert_eq!(
                LENGTHS.iter().try_for_each(|&words| right_at(&mix, words)),
                Ok(())
            );
        }
    }
}
