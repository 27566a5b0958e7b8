//! `bench instructions`: how many instructions the proved functions take, by callgrind,
//! held to what is written down. Unlike a time, such a count comes out the same on a busy
//! machine.

use std::ffi::OsString;
use std::fs;
use std::path::Path;
use std::process::{Command, Stdio};

use crate::judging::instructions::{
    at_most, compared, figures, near, parts, read_written, written, Figure, HEAD, PERCENT,
};
use crate::judging::jobs::{do_all, jobs, Job, AFTER_A_JOB};
use crate::judging::worst::{beyond, largest_of, worst_jobs};
use line::args::Options;
use line::output::{self, say};
use line::scratch::Folder;
use line::text::explain::counted;
use line::text::input::read_text;

pub const HELP: &str = "\
bench instructions [--worst] [--write] [--file FILE]

Counts by valgrind's callgrind the instructions of the proved functions on fixed
tables and lists: the checks of two tables, runs of four mixes on two tables in
lists of 8, 64 and 4,096 words by each proved run, and the other functions. Only
those of the archive's own functions count, not those of the C library's memcpy.
Holds them to the figures that are written down in bench/instructions.txt, which
this program was built with: one that rose or fell by more than 3 % fails, and
says so.

  --worst      counts on tables and calls that are made to cost as much as
               possible instead, and holds the largest of each function and kind
               of call to bench/worst.txt: one that rose at all fails, and so
               does one written down that passes what include/balkwizu.h below
               this folder allows (BALKWIZU_.._INSTRUCTIONS). What memory
               functions took is shown beside it and not held
  --write      writes the figures down anew, to bench/instructions.txt below
               this folder, or to bench/worst.txt: where a change of the archive
               is meant, with it
  --file FILE  takes the figures of another file, or writes them there

The counts are the same at each run of one archive, whatever else the machine
does.

Exit status: 0 all figures hold, or are written; 1 some don't; 2 bad usage, or
nothing could be counted.
";

/// What is counted: the jobs, the file that has their figures in the repository, its head
/// and its text.
struct Counting {
    jobs: fn() -> Vec<Job>,
    file: &'static str,
    head: &'static str,
    written: &'static str,
}

const TYPICAL: Counting = Counting {
    jobs,
    file: "bench/instructions.txt",
    head: HEAD,
    written: include_str!("../../instructions.txt"),
};

const WORST: Counting = Counting {
    jobs: worst_jobs,
    file: "bench/worst.txt",
    head: "\
# The most instructions that were found for each function and kind of call, counted by callgrind:
# the archive's own alone. The number after a function's name is that of the list's words, or of
# the calls to be written. `bench instructions --worst` holds the archive to these figures.
",
    written: include_str!("../../worst.txt"),
};

/// The header, whose macros the largest figures are held to, in the repository.
const HEADER: &str = "include/balkwizu.h";

/// The options of the other jobs, and by which the command does the jobs themselves, under
/// callgrind.
const OTHERS: &str = "--worst";
const JOBS: &str = "--jobs";

/// The command: whether the figures hold.
pub fn command(line: &[OsString]) -> Result<bool, String> {
    let options = Options::parse(line, &["--file"], &["--write", OTHERS, JOBS])?;
    options.no_file()?;
    let worst = options.has(OTHERS);
    let counting = if worst { WORST } else { TYPICAL };
    if options.has(JOBS) {
        do_all(&(counting.jobs)());
        return Ok(true);
    }
    let file = options.path("--file");
    if options.has("--write") {
        return write_anew(&counting, file.unwrap_or(Path::new(counting.file)), worst);
    }
    let written = match file {
        None => read_written(counting.written)?,
        Some(file) => read_file(file)?,
    };
    if !worst {
        return Ok(report(&counted_now(&counting, worst)?, &written));
    }
    let header = fs::read_to_string(HEADER).map_err(|why| format!("{HEADER}: {why}"))?;
    let beyond = beyond(&header, &written);
    Ok(tell_worst(
        &counted_now(&counting, worst)?,
        &written,
        &beyond,
    ))
}

fn read_file(file: &Path) -> Result<Vec<Figure>, String> {
    let text = read_text(file, "`bench instructions --write` writes one")?;
    read_written(&text).map_err(|why| format!("{}: {why}", output::shown(file)))
}

/// Counts, and writes the figures to a file; whether that can be is known before.
fn write_anew(counting: &Counting, file: &Path, worst: bool) -> Result<bool, String> {
    output::may_write("--file", file, &[])?;
    let figures = counted_now(counting, worst)?;
    output::write_file(file, &written(counting.head, &figures))?;
    let figures = counted(figures.len(), "figure");
    say!("{figures} written to {}", output::shown(file));
    Ok(true)
}

/// Tells what became of each figure; whether all hold.
fn report(figures: &[Figure], written: &[Figure]) -> bool {
    let (report, failed) = compared(figures, written, near);
    report.iter().for_each(|line| say!("{line}"));
    if failed > 0 {
        say!(
            "{} not within {PERCENT} % of what is written down. Where that is meant: \
             bench instructions --write",
            counted(failed, "figure")
        );
    }
    failed == 0
}

/// Tells what became of the largest figures, and which of those written down are beyond what
/// the header allows; whether all hold.
fn tell_worst(figures: &[Figure], written: &[Figure], beyond: &[String]) -> bool {
    let (report, failed) = compared(figures, written, at_most);
    report.iter().for_each(|line| say!("{line}"));
    beyond.iter().for_each(|line| say!("FAILED  {line}"));
    failed == 0 && beyond.is_empty()
}

/// Has the jobs done by this program under callgrind, and reads what that counted.
fn counted_now(counting: &Counting, worst: bool) -> Result<Vec<Figure>, String> {
    let folder = Folder::make("instructions")?;
    let left = folder.path().join("callgrind");
    let program = std::env::current_exe().map_err(|why| format!("where am I? {why}"))?;
    let ran = Command::new("valgrind")
        .args(["--tool=callgrind", "--command-line-only=yes", "--quiet"])
        .args(["--demangle=no", "--combine-dumps=yes"])
        .arg(format!("--dump-before={AFTER_A_JOB}"))
        .arg(format!("--callgrind-out-file={}", left.display()))
        .arg(program)
        .args(["instructions", JOBS])
        .args(worst.then_some(OTHERS))
        .current_dir(folder.path())
        .stdin(Stdio::null())
        .output()
        .map_err(|why| format!("cannot run valgrind, which counts the instructions: {why}"))?;
    if !ran.status.success() {
        let said = String::from_utf8_lossy(&ran.stderr);
        return Err(format!("valgrind ended with {}: {said}", ran.status));
    }
    let text = fs::read_to_string(&left).map_err(|why| format!("callgrind left nothing: {why}"))?;
    let names = (counting.jobs)().into_iter().map(|job| job.name).collect();
    Ok(largest_of(figures(names, &parts(&text)?)?))
}

#[cfg(test)]
mod tests {
    use super::*;

    #[test]
    fn the_help_says_how_much_a_figure_may_rise() {
        assert!(HELP.contains(&format!("by more than {PERCENT} % fails")));
    }

    #[test]
    fn the_figures_of_the_repository_are_those_of_the_jobs() {
        for counting in [TYPICAL, WORST] {
            let written = read_written(counting.written).unwrap();
            let names: Vec<String> = written.into_iter().map(|one| one.name).collect();
            let mut wanted: Vec<String> = Vec::new();
            for job in (counting.jobs)() {
                if !wanted.contains(&job.name) {
                    wanted.push(job.name);
                }
            }
            assert_eq!(names, wanted, "{}", counting.file);
        }
    }

    #[test]
    fn the_header_allows_the_largest_figures_of_the_repository() {
        let written = read_written(WORST.written).unwrap();
        let repository = Path::new(env!("CARGO_MANIFEST_DIR")).join("..");
        let header = fs::read_to_string(repository.join(HEADER)).unwrap();
        assert_eq!(beyond(&header, &written), [""; 0]);
    }
}
