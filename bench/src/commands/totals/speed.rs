//! How long linetotals takes for many long lists: beside `cat`, which only reads the same
//! bytes, and beside the same job in plain C. They take turns, and a figure is the median
//! of the rounds, in processor seconds, so that other work on the machine counts little.

use std::fs::File;
use std::io::{BufWriter, Write};
use std::path::Path;

use reference::calls::LIST_WORDS_MAX;
use reference::words::to_bytes;

use crate::cases::sheets::long_inputs;
use crate::cases::workloads::Workload;
use crate::judging::program_times::{compiled, level, over, timed, times, Plain};
use crate::judging::timing::median;
use line::output::{self, say};
use line::scratch::Folder;
use line::text::explain::counted;

/// The plain C program.
const PLAIN: Plain = ("plain_totals", include_str!("../../../c/plain_totals.c"));

/// Measures a program on inputs of so many lists; whether it prints what it should.
pub fn measure(program: &Path, lists: usize, rounds: usize) -> Result<bool, String> {
    let folder = Folder::make("totals")?;
    let plain = compiled(folder.path(), PLAIN)?;
    let bytes = lists * 4 * (1 + LIST_WORDS_MAX);
    say!(
        "{} of {} words ({:.3} GB), {}, processor seconds. Plain C by gcc {}.\n",
        counted(lists, "list"),
        LIST_WORDS_MAX,
        bytes as f64 / 1e9,
        counted(rounds, "round"),
        level()
    );
    say!("| Lists | cat, s | plain C, s | linetotals, s | GB/s | over cat | over plain C |");
    say!("|---|---:|---:|---:|---:|---:|---:|");
    for input in long_inputs() {
        let file = folder.path().join("input");
        written(&input, lists, &file)?;
        if !same(&plain, program, &file)? {
            let name = input.name;
            say!("DIFFERENCE on {name}: linetotals and the plain C don't print the same");
            return Ok(false);
        }
        let times = times([Path::new("cat"), &plain, program], &file, (rounds, 1))?;
        say!("{}", row(&input.name, bytes, &times));
    }
    Ok(true)
}

/// Whether two programs print the same for a file, and something.
fn same(one: &Path, other: &Path, file: &Path) -> Result<bool, String> {
    let printed = timed(one, file, true)?.1;
    Ok(!printed.is_empty() && printed == timed(other, file, true)?.1)
}

/// A row of the seconds of `cat`, the plain C and the program, round by round.
fn row(name: &str, bytes: usize, times: &[Vec<f64>; 3]) -> String {
    let [cat, plain, program] = times;
    let all = [cat, plain, program].map(|seconds| median(seconds.clone()));
    format!(
        "| {name} | {:.2} | {:.2} | {:.2} | {:.2} | {:.1} | {:.2} |",
        all[0],
        all[1],
        all[2],
        bytes as f64 / 1e9 / all[2],
        over(program, cat),
        over(program, plain)
    )
}

/// Writes a table and so many lists, the input's own in rotation.
fn written(input: &Workload, lists: usize, file: &Path) -> Result<(), String> {
    let all: Vec<Vec<u8>> = input.lists.iter().map(|list| with_length(list)).collect();
    let write = || {
        let mut out = BufWriter::new(File::create(file)?);
        out.write_all(&with_length(&input.table))?;
        for list in all.iter().cycle().take(lists) {
            out.write_all(list)?;
        }
        out.flush()
    };
    write().map_err(|why| format!("cannot write {}: {why}", output::shown(file)))
}

/// Words with their number before them, as bytes.
fn with_length(words: &[u32]) -> Vec<u8> {
    to_bytes(&[&[words.len() as u32], words].concat())
}

#[cfg(test)]
mod tests {
    use super::*;
    use std::io::Read;

    #[test]
    fn the_plain_c_prints_what_the_reference_prints() {
        let folder = Folder::make("totals").unwrap();
        let plain = compiled(folder.path(), PLAIN).unwrap();
        let file = folder.path().join("input");
        for input in long_inputs() {
            written(&input, 70, &file).unwrap();
            let mut bytes = Vec::new();
            File::open(&file).unwrap().read_to_end(&mut bytes).unwrap();
            assert_eq!(
                bytes.len(),
                4 * (1 + input.table.len()) + 70 * 4 * (1 + LIST_WORDS_MAX)
            );
            let (_, printed) = timed(&plain, &file, true).unwrap();
            assert_eq!(printed, reference::totals(&bytes), "{}", input.name);
            assert!(printed.ends_with(b"lists 70 code 0\n"));
            assert_eq!(same(&plain, &plain, &file), Ok(true));
            assert_eq!(same(Path::new("cat"), &plain, &file), Ok(false));
        }
    }

    #[test]
    fn a_figure_is_the_median_of_the_rounds() {
        let times = [
            vec![1.0, 3.0, 2.0],
            vec![2.0, 4.0, 9.0],
            vec![4.0, 6.0, 8.0],
        ];
        let cells = row("x", 12_000_000_000, &times);
        assert_eq!(cells, "| x | 2.00 | 4.00 | 6.00 | 2.00 | 4.0 | 1.50 |");
    }
}
