//! `bench linerun`: the program `linerun` beside the reference, on random inputs, and its
//! speed.

mod speed;

use std::ffi::OsString;

use reference::calls::LIST_WORDS_MAX;
use reference::check_table;
use reference::words::from_bytes;

use crate::cases::inputs::{apart, due, fixed, given, Given};
use crate::commands::compared::Program;
use crate::commands::drawn::{draws_of, TRIED};
use crate::judging::printed::shorter;
use crate::kernels::program::Feed;
use line::args::Options;
use line::text::explain::counted;

pub const HELP: &str = "\
bench linerun PROGRAM [--cases N] [--seed S] [--from K] [--time T]
bench linerun PROGRAM --speed [--rounds N]

Runs PROGRAM, as crates/linerun/out/linerun, on random inputs and compares every
byte that it prints with what the reference prints: lists that run, tables that
are refused, inputs that are cut short, that have bytes left over, and that are
too long. Before these come fixed ones: the worked example cut after each byte,
bytes of every value left over after lists of many lengths, and length words
with each bit turned. Some are given byte by byte or in odd parts. Where the
answer is due before the end, at a length word above 641 and at list word 4,097,
the pipe is held open after that, with up to three bytes more: the answer must
come all the same. PROGRAM must end with status 0 each time; it is stopped after
T seconds on one input, or when it prints more than any list of calls is
answered with; and it must write nothing to standard error.

  --cases N  inputs to try (default 2,000)
  --seed S   the seed that they are drawn from (default 1)
  --from K   the number of the first input (default 0)
  --time T   the seconds that it may take for one input (default 10)

The first difference ends it, with the words that show it as `balkwizu write`
takes them. From 1,000 inputs on, a code that no input met is a failure too, and
so is a way to give an input that was never used.

With --speed, measures PROGRAM on lists of 4,096 words beside the same job in
plain C (bench/c/plain_linerun.c, gcc -O3): the processor time of a run. They
take turns, and a figure is the median of the rounds.

  --rounds N  rounds, 1 to 1,000 (default 31)

Exit status: 0 nothing differs, and every code was met where that is asked; or
the speed was measured; 1 otherwise; 2 bad usage, or a program that can't be
started.
";

const LINERUN: Program = Program {
    name: "linerun",
    fixed,
    given,
    right: reference::linerun,
    code: |printed| printed.lines().next()?.rsplit(' ').next()?.parse().ok(),
    ways: &[
        "byte by byte",
        "in odd parts",
        "held open at a length word above 641",
        "held open at list word 4,097",
        "held open at list word 4,097 with bytes left over",
        "held open at list word 4,097 after a bad table",
    ],
    used,
    enough: 1000,
    more: |program, Given { input, feed }, ran| {
        way_in_words(input, *feed) + &shorter(program, input, *feed, ran)
    },
};

/// The command: whether nothing differs.
pub fn command(line: &[OsString]) -> Result<bool, String> {
    let valued = [&TRIED[..], &["--rounds"]].concat();
    let options = Options::parse(line, &valued, &["--speed"])?;
    let program = options.file().map_err(|why| format!("PROGRAM: {why}"))?;
    if options.has("--speed") {
        options.only("--speed", &["--rounds"])?;
        return speed::measure(program, options.within("--rounds", 31, 1000)?);
    }
    options.only("a comparison", &TRIED)?;
    LINERUN.compare(program, &draws_of(&options, 2000)?)
}

/// The ways in which an input was given.
fn used(input: &[u8], feed: Feed) -> Vec<bool> {
    let (head, list, left_over) = apart(input);
    let at_the_list = feed.held && list.len() > LIST_WORDS_MAX;
    vec![
        feed.parts == Some(1),
        feed.parts > Some(1),
        feed.held && !at_the_list,
        at_the_list && left_over.is_empty(),
        at_the_list && !left_over.is_empty(),
        at_the_list && check_table(&from_bytes(&head[4..])) != 0,
    ]
}

/// How an input was given, where it wasn't at once and with its end.
fn way_in_words(input: &[u8], feed: Feed) -> String {
    let parts = match feed.parts {
        None => String::new(),
        Some(1) => "It was given byte by byte.\n".to_string(),
        Some(most) => format!("It was given in parts of 1 to {most} bytes.\n"),
    };
    if !feed.held {
        return parts;
    }
    let what = match due(input) {
        Some(4) => "the length word is above 641, so that",
        _ => "list word 4,097 was there, so that",
    };
    let bytes = counted(input.len(), "byte");
    format!("{parts}The pipe was held open after {bytes}: {what} the answer was due.\n")
}

#[cfg(test)]
mod tests {
    use super::*;
    use crate::commands::compared::tests::inputs_meet_every_code_and_way;

    #[test]
    fn inputs_meet_every_code_and_every_way() {
        inputs_meet_every_code_and_way(&LINERUN, HELP, "1,000");
    }
}
