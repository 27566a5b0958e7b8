//! `balkwizu run`: a list on the kernel, call by call, and what is left of it in files.

use std::ffi::OsString;

use crate::commands::show::{file_for, ran};
use line::args::Options;
use line::output::{self, say};
use line::pictures::diagram::calls_in_words;
use line::refused;
use line::text::answers;
use line::text::given::read_given;
use line::text::hex;
use line::text::input::{shown, Input};

pub const HELP: &str = "\
balkwizu run FILE [--answers OUT] [--left OUT]

Runs the list of an input of linerun on the kernel, and prints each call with
its answer; of a refused one, why. FILE may be a text as `balkwizu write` takes
it.

  --answers OUT  write the answers to OUT, in the lines that linerun prints
  --left OUT     write the table that the list leaves to OUT, as a text with the
                 names that FILE gives; it is a FILE for every command

`balkwizu commission FILE --answers A --left T` takes both.

Exit status: 0 it ran, refused calls or not; 1 the input or its table is
refused, with what is wrong, and nothing written; 2 bad usage, or a file that
can't be read or written.
";

/// The command: whether the list ran.
pub fn command(line: &[OsString]) -> Result<bool, String> {
    let options = Options::parse(line, &["--answers", "--left"], &[])?;
    let file = options.file()?;
    let to_answers = file_for(&options, "--answers", file)?;
    let to_left = file_for(&options, "--left", file)?;
    output::may_write_both(("--answers", to_answers), ("--left", to_left))?;
    let given = read_given(file)?;
    let input = match given.accepted() {
        Ok(input) => input,
        Err(refusal) => {
            refused::report(file, &refusal, "");
            return Ok(false);
        }
    };
    let left = ran(&input)?;
    if let Some(out) = to_answers {
        output::write_file(out, &answers::write(&left.answers))?;
    }
    if let Some(out) = to_left {
        let table = left.table.clone();
        let list = Vec::new();
        let table = hex::write(&Input { table, list });
        output::write_file(out, &(given.names.lines() + &table))?;
    }
    let said = calls_in_words(&input, &given.names, Some(&left.answers), usize::MAX);
    output::write(said.as_bytes());
    for (what, out) in [("answers", to_answers), ("table", to_left)] {
        if let Some(out) = out {
            say!("{what} written to {}", shown(out));
        }
    }
    Ok(true)
}
