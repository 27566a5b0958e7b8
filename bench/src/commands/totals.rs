//! `bench totals`: the program `linetotals` beside the reference, on random inputs; and its
//! speed.

mod speed;

use std::ffi::OsString;

use crate::cases::sheets::{fixed, given, most_lists};
use crate::commands::compared::Program;
use crate::commands::drawn::{draws_of, TRIED};
use line::args::Options;
use line::pictures::sheet;

pub const HELP: &str = "\
bench totals PROGRAM [--cases N] [--seed S] [--from K] [--time T]
bench totals PROGRAM --speed [--lists N] [--rounds N]

With PROGRAM, runs it, as crates/linetotals/out/linetotals, on random inputs and
compares every byte that it prints with what the reference prints: lists that
run one after another, tables and lists that are refused, inputs that are cut
short.
Some are given byte by byte or in odd parts. Where what is printed is due before
the end (a refused table, a length word above 4,096, a byte after the 65,536th
list) the pipe is held open there: the sheet must come all the same. The first
two inputs have 65,536 lists with a send and a receive each, one of them a
length word more. Then come fixed ones: more than 65,536 sends, receives and
losses at one endpoint, more than 100 lists, some of exactly 4,096 words, an
input cut after each byte, and length words with each bit turned. PROGRAM must
write nothing to standard error.

  --cases N  inputs to try (default 1,000)
  --seed S   the seed that they are drawn from (default 1)
  --from K   the number of the first input (default 0)
  --time T   the seconds that it may take for one input (default 10)

From 500 inputs on, a code that no input met is a failure too, and so is a way
to give an input that was never used.

With --speed, measures PROGRAM on long lists beside `cat` on the same bytes and
beside the same job in plain C, bench/c/plain_totals.c as gcc -O3 makes it. The
three take turns on an input of a gibibyte, which is made for it and removed;
times are processor seconds.

  --lists N   lists of 4,096 words, 1 to 65,536 (default 65,536)
  --rounds N  rounds, 1 to 100 (default 5)

Exit status: 0 nothing differs, and every code was met where that is asked, or
the speed was measured; 1 otherwise; 2 bad usage, or a program that can't be
started.
";

const TOTALS: Program = Program {
    name: "totals",
    fixed: |limit| most_lists(limit).into_iter().chain(fixed(limit)).collect(),
    given,
    right: reference::totals,
    code: |printed| Some(sheet::last_line(printed.lines().last()?)?.1),
    ways: &["byte by byte", "in odd parts", "held open where it is due"],
    used: |_, feed| vec![feed.parts == Some(1), feed.parts > Some(1), feed.held],
    enough: 500,
    more: |_, _, _| String::new(),
};

/// The command: whether nothing differs.
pub fn command(line: &[OsString]) -> Result<bool, String> {
    let valued = [&TRIED[..], &["--lists", "--rounds"]].concat();
    let options = Options::parse(line, &valued, &["--speed"])?;
    let program = options.file().map_err(|why| format!("PROGRAM: {why}"))?;
    if options.has("--speed") {
        options.only("--speed", &["--lists", "--rounds"])?;
        let lists = options.within("--lists", 65_536, 65_536)?;
        return speed::measure(program, lists, options.within("--rounds", 5, 100)?);
    }
    options.only("a comparison", &TRIED)?;
    TOTALS.compare(program, &draws_of(&options, 1000)?)
}

#[cfg(test)]
mod tests {
    use super::*;
    use crate::commands::compared::tests::inputs_meet_every_code_and_way;

    #[test]
    fn inputs_meet_every_code_and_every_way() {
        inputs_meet_every_code_and_way(&TOTALS, HELP, "500");
    }
}
