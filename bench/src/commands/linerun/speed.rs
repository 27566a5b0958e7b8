//! How long linerun takes for a list of 4,096 words, beside the same job in plain C. They
//! take turns, each some runs at a time, and a figure is the median of the rounds.

use std::fs;
use std::path::Path;

use reference::cut;
use reference::words::to_bytes;

use crate::cases::workloads::{by_kind, workloads};
use crate::judging::program_times::{compiled, level, over, timed, times, Plain};
use crate::judging::timing::median;
use line::output::{self, say};
use line::scratch::Folder;
use line::text::explain::counted;

/// The plain C program.
const PLAIN: Plain = ("plain_linerun", include_str!("../../../c/plain_linerun.c"));

/// So many runs of a program are timed in its turn.
const RUNS: usize = 20;

/// An input, and how many calls it has.
struct Timed {
    name: String,
    bytes: Vec<u8>,
    calls: usize,
}

/// The table alone, by which one sees what it takes to begin and to end; then a list of
/// 4,096 calls, and lists of two kinds and of all.
fn inputs() -> Vec<Timed> {
    let kinds = by_kind(1);
    let rights = kinds
        .iter()
        .find(|it| it.name.starts_with("my rights, n 4"));
    let [sends, mixed, ..] = &workloads(1)[..] else {
        return Vec::new();
    };
    let of = |name: &str, table: &[u32], list: &[u32]| Timed {
        name: name.to_string(),
        bytes: to_bytes(&[&[table.len() as u32], table, list].concat()),
        calls: cut(list).len(),
    };
    let lists = rights.into_iter().chain([sends, mixed]);
    let lists = lists.map(|it| of(&it.name, &it.table, &it.lists[0]));
    let alone = of("no call", &mixed.table, &[]);
    [alone].into_iter().chain(lists).collect()
}

/// Measures a program; whether it prints what it should.
pub fn measure(program: &Path, rounds: usize) -> Result<bool, String> {
    let folder = Folder::make("linerun")?;
    let plain = compiled(folder.path(), PLAIN)?;
    let programs = [&plain, program];
    say!(
        "{} of {RUNS} runs each, processor time of a run, user and system. Plain C by gcc {}.\n",
        counted(rounds, "round"),
        level()
    );
    say!("| Input | calls | plain C, µs | linerun, µs | over plain C | beyond no call |");
    say!("|---|---:|---:|---:|---:|---:|");
    let mut none = [0.0; 2];
    for (number, input) in inputs().iter().enumerate() {
        let file = folder.path().join("input");
        fs::write(&file, &input.bytes).map_err(|why| format!("cannot write: {why}"))?;
        if let Some(program) = first_wrong(programs, &file, &input.bytes)? {
            let (name, program) = (&input.name, output::shown(program));
            say!("DIFFERENCE on {name}: {program} prints other lines");
            return Ok(false);
        }
        let times = times(programs, &file, (rounds, RUNS))?;
        say!("{}", row(input, &times, (number > 0).then_some(none)));
        if number == 0 {
            none = times.map(median);
        }
    }
    Ok(true)
}

/// The first of the programs that prints other lines for an input than the reference.
fn first_wrong<'a>(
    programs: [&'a Path; 2],
    file: &Path,
    input: &[u8],
) -> Result<Option<&'a Path>, String> {
    let wanted = reference::linerun(input);
    for program in programs {
        if timed(program, file, true)?.1 != wanted {
            return Ok(Some(program));
        }
    }
    Ok(None)
}

/// A row of the table. The last cell is the ratio of what is left where the time of no call
/// is taken away from both.
fn row(input: &Timed, times: &[Vec<f64>; 2], none: Option<[f64; 2]>) -> String {
    let [plain, program] = times;
    let over = over(program, plain);
    let all = times.clone().map(median);
    let beyond = none.map_or(String::new(), |none| {
        format!("{:.2}", (all[1] - none[1]) / (all[0] - none[0]))
    });
    format!(
        "| {} | {} | {:.0} | {:.0} | {over:.2} | {beyond} |",
        input.name,
        input.calls,
        1e6 * all[0],
        1e6 * all[1]
    )
}

#[cfg(test)]
mod tests {
    use super::*;
    use crate::cases::inputs::{given, Given};
    use std::time::Duration;

    #[test]
    fn inputs_have_4096_words_or_none_and_one_has_as_many_calls() {
        let all = inputs();
        let calls: Vec<usize> = all.iter().map(|input| input.calls).collect();
        assert_eq!(calls[..3], [0, 4096, 2731]);
        assert!(calls.len() == 4 && calls[3] > 3000, "{calls:?}");
    }

    #[test]
    fn the_plain_c_prints_what_the_reference_prints() {
        let folder = Folder::make("plain-linerun").unwrap();
        let plain = compiled(folder.path(), PLAIN).unwrap();
        let file = folder.path().join("input");
        let random = (0..200).map(|number| given(1, number, Duration::from_secs(10)));
        let random = random.map(|Given { input, .. }| input);
        for input in random.chain(inputs().into_iter().map(|input| input.bytes)) {
            fs::write(&file, &input).unwrap();
            let (_, printed) = timed(&plain, &file, true).unwrap();
            assert_eq!(printed, reference::linerun(&input));
        }
    }

    #[test]
    fn a_program_that_prints_other_lines_is_reported() {
        assert_eq!(measure(Path::new("cat"), 1), Ok(false));
    }

    #[test]
    fn a_row_has_the_medians_and_what_is_beyond_no_call() {
        let times = [vec![100e-6, 300e-6, 200e-6], vec![150e-6, 600e-6, 500e-6]];
        let input = Timed {
            name: "x".to_string(),
            bytes: Vec::new(),
            calls: 9,
        };
        let cells = row(&input, &times, Some([100e-6, 300e-6]));
        assert_eq!(cells, "| x | 9 | 200 | 500 | 2.00 | 2.00 |");
        assert!(row(&input, &times, None).ends_with("| 2.00 |  |"));
    }
}
