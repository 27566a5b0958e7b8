//! How many instructions the proved functions take, as callgrind counts them: what it
//! leaves read, and held to the figures that are written down.
//!
//! Only instructions of the archive's own functions count. The C library's memcpy and
//! its like differ from processor to processor, so what the archive's functions call of
//! these is counted apart; what the bench itself does is no matter.

use std::collections::HashMap;

/// So many percent more or less than what is written down are let pass.
pub const PERCENT: u64 = 3;

/// What is counted of a job, by its name.
#[derive(Debug, Clone, PartialEq, Eq)]
pub struct Figure {
    pub name: String,
    pub instructions: u64,
    /// Those of the memory functions that were called; none where a file was read.
    pub memory: u64,
}

/// What callgrind counted in a part: the instructions of the archive's functions, and those
/// of what they called that isn't of it, which are memcpy, memmove and memset alone.
#[derive(Debug, Clone, Copy, Default, PartialEq, Eq)]
pub struct Part {
    own: u64,
    memory: u64,
}

/// Whether a function is of the archive, by its name as the linker has it. There an
/// exported one begins like this, and an inner one is named `crate::function`; no C
/// function and no mangled one of Rust has such a name.
fn is_own(function: &str) -> bool {
    function.starts_with("balkwizu_") || function.contains("::")
}

/// The instructions in each part that callgrind left.
///
/// Its text has `fn=(7) name` where the costs of a function begin, `cfn=` where it calls
/// one; a name is given once, and then by its number alone. A line of a cost is a place
/// and the cost; the one after `calls=` is that of the function called with all that it
/// calls. Where that is of the archive too, it counts by its own lines.
pub fn parts(left: &str) -> Result<Vec<Part>, String> {
    let mut names: HashMap<&str, bool> = HashMap::new();
    let mut parts: Vec<Part> = Vec::new();
    let (mut own, mut of_own, mut called) = (false, false, false);
    for line in left.lines() {
        if line.starts_with("part: ") {
            parts.push(Part::default());
        } else if let Some(function) = line.strip_prefix("fn=") {
            own = whether_own(function, &mut names)?;
        } else if let Some(function) = line.strip_prefix("cfn=") {
            of_own = whether_own(function, &mut names)?;
        } else if line.starts_with("calls=") {
            called = true;
        } else if line.starts_with(|first: char| first.is_ascii_digit() || "+-*".contains(first)) {
            if own {
                let part = parts.last_mut().ok_or("a cost before the first part")?;
                part.own += if called { 0 } else { cost(line)? };
                part.memory += if called && !of_own { cost(line)? } else { 0 };
            }
            called = false;
        }
    }
    Ok(parts)
}

/// Whether `(7) name`, or `(7)` where the name was given before, is of the archive.
fn whether_own<'a>(function: &'a str, names: &mut HashMap<&'a str, bool>) -> Result<bool, String> {
    let (number, name) = function.split_once(' ').unwrap_or((function, ""));
    if !name.is_empty() {
        names.insert(number, is_own(name));
    }
    let known = names.get(number).copied();
    known.ok_or_else(|| format!("no name for the function {function}"))
}

/// The cost in a line of a place and a cost.
fn cost(line: &str) -> Result<u64, String> {
    let cost = line.split(' ').nth(1).and_then(|cost| cost.parse().ok());
    cost.ok_or_else(|| format!("no cost in the line `{line}`"))
}

/// The figures of jobs, given the parts that end after each of them and the one after
/// the last.
pub fn figures(names: Vec<String>, parts: &[Part]) -> Result<Vec<Figure>, String> {
    let Some((&Part { own: 0, .. }, parts)) = parts.split_last() else {
        return Err("proved functions are called after the last job".to_string());
    };
    if parts.len() != names.len() || parts.iter().any(|part| part.own == 0) {
        return Err(format!(
            "{} parts for {} jobs, {} of them without a proved function",
            parts.len(),
            names.len(),
            parts.iter().filter(|part| part.own == 0).count()
        ));
    }
    let each = names.into_iter().zip(parts);
    Ok(each
        .map(|(name, part)| Figure {
            name,
            instructions: part.own,
            memory: part.memory,
        })
        .collect())
}

pub const HEAD: &str = "\
# Instructions that the proved functions take, counted by callgrind: the archive's own alone.
# `bench instructions` holds the archive to these figures; with --write it writes them anew.
";

/// Figures as a file has them after its head: a line each, the number and the name.
pub fn written(head: &str, figures: &[Figure]) -> String {
    let line = |one: &Figure| format!("{:>9}  {}\n", one.instructions, one.name);
    head.to_string() + &figures.iter().map(line).collect::<String>()
}

/// Figures out of a file's text.
pub fn read_written(text: &str) -> Result<Vec<Figure>, String> {
    let lines = text.lines().filter(|line| !line.starts_with('#'));
    let figure = |line: &str| {
        let (number, name) = line.trim_start().split_once("  ")?;
        let instructions = number.parse().ok().filter(|&number| number > 0)?;
        let name = name.to_string();
        let memory = 0;
        Some(Figure {
            name,
            instructions,
            memory,
        })
    };
    lines
        .map(|line| figure(line).ok_or_else(|| format!("no figure in the line `{line}`")))
        .collect()
}

/// How a figure compares with the number that is written down for it, well or not.
type Beside = fn(&Figure, u64) -> Result<String, String>;

/// What is said of figures that were counted beside those that are written down, and how
/// many fail: what doesn't hold, what isn't written down, what is written alone.
pub fn compared(counted: &[Figure], written: &[Figure], beside: Beside) -> (Vec<String>, usize) {
    let among = |figures: &[Figure], name: &str| {
        let found = figures.iter().find(|one| one.name == name);
        found.map(|one| one.instructions)
    };
    let report = counted.iter().map(|one| {
        let Figure {
            name, instructions, ..
        } = one;
        let missing = || format!("{name}: {instructions} instructions, none written down");
        beside(one, among(written, name).ok_or_else(missing)?)
    });
    let gone = written
        .iter()
        .filter(|one| among(counted, &one.name).is_none());
    let gone = gone.map(|one| Err(format!("{}: written down, but not counted", one.name)));
    let report: Vec<Result<String, String>> = report.chain(gone).collect();
    let failed = report.iter().filter(|report| report.is_err()).count();
    let line = |report| match report {
        Ok(well) => format!("ok      {well}"),
        Err(wrong) => format!("FAILED  {wrong}"),
    };
    (report.into_iter().map(line).collect(), failed)
}

/// A figure that may neither rise nor fall by more than 3 %.
pub fn near(one: &Figure, written: u64) -> Result<String, String> {
    let Figure {
        name, instructions, ..
    } = one;
    let percent = 100.0 * (*instructions as f64 / written as f64 - 1.0);
    let way = if percent < 0.0 { "fell" } else { "rose" };
    let size = percent.abs();
    match 100 * instructions.abs_diff(written) <= PERCENT * written {
        true => Ok(format!(
            "{name}: {instructions} instructions ({percent:+.1} %)"
        )),
        false => Err(format!(
            "{name}: {way} by {size:.1} %, {instructions} instructions where {written} are \
             written down"
        )),
    }
}

/// A figure that may not rise, however little.
pub fn at_most(one: &Figure, written: u64) -> Result<String, String> {
    let Figure {
        name,
        instructions,
        memory,
    } = one;
    let counted = format!("{name}: {instructions} instructions, {memory} in memory functions");
    match *instructions <= written {
        true => Ok(counted),
        false => Err(format!(
            "{counted}; rose above {written}, the most written down"
        )),
    }
}

#[cfg(test)]
mod tests {
    use super::*;

    /// Two parts as callgrind leaves them, cut down.
    const LEFT: &str = "\
# callgrind format
version: 1
part: 1
positions: line
events: Ir

ob=(1) /usr/bin/bench
fl=(1) ???
fn=(1) main
0 50
cfn=(2) balkwizu_run
calls=1 0
0 3000

fn=(2)
0 100
+3 20
cfn=(3) kernel::serve::serve
calls=7 0
* 2000
-1 5
cob=(2) /lib/libc.so.6
cfn=(4) __memcpy_avx_unaligned_erms
calls=1 0
0 900

ob=(2)
fn=(4)
0 900

ob=(1)
fn=(3)
0 2000

part: 2
fn=(1)
0 70
";

    fn part(own: u64, memory: u64) -> Part {
        Part { own, memory }
    }

    #[test]
    fn only_the_archives_own_instructions_count_and_each_once() {
        assert_eq!(
            parts(LEFT),
            Ok(vec![part(100 + 20 + 5 + 2000, 900), part(0, 0)])
        );
    }

    #[test]
    fn what_callgrind_does_not_leave_is_reported() {
        let wrong = |text: &str| parts(text).unwrap_err();
        assert!(wrong("part: 1\nfn=(3)\n0 5\n").contains("(3)"));
        assert!(wrong("part: 1\nfn=(3) a::b\n0 many\n").contains("0 many"));
        assert!(wrong("fn=(3) a::b\n0 5\n").contains("first part"));
    }

    #[test]
    fn each_job_has_a_part_with_a_proved_function() {
        let names = || vec!["one".to_string(), "two".to_string()];
        let figures = |parts: &[u64]| {
            let parts: Vec<Part> = parts.iter().map(|&own| part(own, 3)).collect();
            figures(names(), &parts)
        };
        assert_eq!(figures(&[5, 7, 0]).unwrap()[1].instructions, 7);
        for wrong in [&[5, 7][..], &[5, 7, 1], &[5, 0, 0], &[5, 7, 9, 0], &[]] {
            assert!(figures(wrong).is_err(), "{wrong:?}");
        }
    }

    fn figure(name: &str, instructions: u64) -> Figure {
        let name = name.to_string();
        let memory = 0;
        Figure {
            name,
            instructions,
            memory,
        }
    }

    #[test]
    fn figures_are_read_as_they_are_written() {
        let figures = [figure("run, n 4, m 4", 12), figure("check", 1_234_567_890)];
        assert_eq!(read_written(&written(HEAD, &figures)).unwrap(), figures);
        assert!(read_written("12 x\n").is_err());
        assert!(read_written("0  x\n").is_err());
        assert!(read_written("  \n").is_err());
    }

    #[test]
    fn three_percent_more_or_less_are_let_pass_and_no_more() {
        let failed = |counted, written| {
            let (report, failed) = compared(&[figure("x", counted)], &[figure("x", written)], near);
            assert_eq!(report[0].starts_with("FAILED  x: "), failed == 1);
            (
                failed,
                report[0].contains("rose by"),
                report[0].contains("fell by"),
            )
        };
        assert_eq!(failed(1000, 1000), (0, false, false));
        assert_eq!(failed(1030, 1000), (0, false, false));
        assert_eq!(failed(970, 1000), (0, false, false));
        assert_eq!(failed(1031, 1000), (1, true, false));
        assert_eq!(failed(969, 1000), (1, false, true));
    }

    #[test]
    fn the_largest_may_fall_and_not_rise_by_one() {
        let failed = |counted| compared(&[figure("x", counted)], &[figure("x", 1000)], at_most).1;
        assert_eq!([1, 1000, 1001].map(failed), [0, 0, 1]);
    }

    #[test]
    fn a_figure_that_is_on_one_side_alone_fails() {
        let (report, failed) = compared(&[figure("new", 5)], &[figure("old", 5)], near);
        assert_eq!(failed, 2);
        assert_eq!(report[0], "FAILED  new: 5 instructions, none written down");
        assert_eq!(report[1], "FAILED  old: written down, but not counted");
    }
}
