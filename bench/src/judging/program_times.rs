//! How long programs take, in processor seconds: of those that were run and have ended,
//! user and system together, since of a program that ends within a tick the system can't
//! separate the two.

use std::ffi::{c_int, c_long};
use std::fs::File;
use std::io;
use std::path::{Path, PathBuf};
use std::process::{Command, Stdio};

use crate::judging::timing::median;
use line::output;

/// How the plain C is compiled, here as by the build: each word an option.
const FLAGS: &str = env!("PLAIN_FLAGS");

/// The level of optimisation among these.
pub fn level() -> &'static str {
    let level = FLAGS.split(' ').find(|flag| flag.starts_with("-O"));
    level.unwrap_or("without optimisation")
}

/// The plain C kernel and what its programs share, which this program carries with it: it
/// knows no folder.
const KERNEL: [(&str, &str); 4] = [
    ("plain.h", include_str!("../../c/plain.h")),
    ("plain_input.h", include_str!("../../c/plain_input.h")),
    ("plain_run.c", include_str!("../../c/plain_run.c")),
    ("plain_check.c", include_str!("../../c/plain_check.c")),
];

/// A program in plain C: its name, and its source beside the kernel's.
pub type Plain = (&'static str, &'static str);

/// A program in plain C, compiled by gcc into a folder.
pub fn compiled(folder: &Path, (name, source): Plain) -> Result<PathBuf, String> {
    let program = folder.join(name);
    let own = format!("{name}.c");
    for (file, text) in KERNEL.into_iter().chain([(own.as_str(), source)]) {
        output::write_file(&folder.join(file), text)?;
    }
    let sources = [own.as_str(), "plain_run.c", "plain_check.c"];
    let status = Command::new("gcc")
        .args(FLAGS.split(' '))
        .args(sources.map(|source| folder.join(source)))
        .arg("-o")
        .arg(&program)
        .status();
    match status {
        Ok(status) if status.success() => Ok(program),
        Ok(status) => Err(format!("gcc ended with {status}")),
        Err(why) => Err(format!("cannot run gcc: {why}")),
    }
}

/// Runs a program on a file; the processor seconds that it took, and what it printed where
/// that is kept. One that fails has no time: it may not have done its work.
pub fn timed(program: &Path, file: &Path, kept: bool) -> Result<(f64, Vec<u8>), String> {
    let wrong = |why: io::Error| format!("cannot run {}: {why}", output::shown(program));
    let input = File::open(file).map_err(wrong)?;
    let out = if kept { Stdio::piped() } else { Stdio::null() };
    let before = children_seconds();
    let child = Command::new(program).stdin(input).stdout(out).spawn();
    let ran = child
        .and_then(|child| child.wait_with_output())
        .map_err(wrong)?;
    if !ran.status.success() {
        return Err(format!(
            "{} ended with {}",
            output::shown(program),
            ran.status
        ));
    }
    Ok((children_seconds() - before, ran.stdout))
}

/// What the system says of the use of a processor: seconds and microseconds, user's and
/// the system's, and fourteen numbers more.
#[repr(C)]
#[derive(Default)]
struct Usage {
    user: [c_long; 2],
    system: [c_long; 2],
    more: [c_long; 14],
}

/// The processor seconds of all programs that were run and have ended.
fn children_seconds() -> f64 {
    extern "C" {
        fn getrusage(who: c_int, usage: *mut Usage) -> c_int;
    }
    const CHILDREN: c_int = -1;
    let mut usage = Usage::default();
    // SAFETY: the structure is that of the system, and borrowed alone.
    unsafe { getrusage(CHILDREN, &mut usage) };
    let seconds = |[whole, millionths]: [c_long; 2]| whole as f64 + 1e-6 * millionths as f64;
    seconds(usage.user) + seconds(usage.system)
}

/// The seconds of one run of each program on a file, round by round, in each of which they
/// take turns of so many runs.
pub fn times<const N: usize>(
    programs: [&Path; N],
    file: &Path,
    (rounds, runs): (usize, usize),
) -> Result<[Vec<f64>; N], String> {
    let mut times = [const { Vec::new() }; N];
    for _ in 0..rounds {
        for (seconds, program) in times.iter_mut().zip(programs) {
            let all: Result<f64, String> =
                (0..runs).map(|_| Ok(timed(program, file, false)?.0)).sum();
            seconds.push(all? / runs as f64);
        }
    }
    Ok(times)
}

/// One program's time over another's: the median of the rounds' ratios.
pub fn over(one: &[f64], other: &[f64]) -> f64 {
    median(
        one.iter()
            .zip(other)
            .map(|(one, other)| one / other)
            .collect(),
    )
}

#[cfg(test)]
mod tests {
    use super::*;
    use std::time::Instant;

    #[test]
    fn a_program_that_fails_has_no_time() {
        let run = |program| timed(Path::new(program), Path::new("/dev/null"), true);
        assert_eq!(run("/bin/true").unwrap().1, b"");
        let said = run("/bin/false").unwrap_err();
        assert!(said.starts_with("/bin/false ended with"), "{said}");
    }

    #[test]
    fn the_time_of_a_program_that_was_run_counts() {
        let (before, start) = (children_seconds(), Instant::now());
        let busy = "i=0; while [ $i -lt 200000 ]; do i=$((i + 1)); done";
        let ran = Command::new("sh").args(["-c", busy]).status();
        assert!(ran.unwrap().success());
        let (took, passed) = (children_seconds() - before, start.elapsed());
        assert!(took > 0.01, "{took}");
        // Other tests may run programs at the same time, on all processors.
        assert!(took < 100.0 * passed.as_secs_f64(), "{took}");
    }
}
