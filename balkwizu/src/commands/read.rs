//! `balkwizu read`: a line in words, its words in hexadecimal, or its calls as text.

use std::ffi::OsString;
use std::path::Path;

use reference::writer::{to_columns, COLUMNS};
use reference::Value;

use super::write::written_again;
use line::args::Options;
use line::output::{self, complain};
use line::refused::{self, Refusal};
use line::text::calls;
use line::text::described;
use line::text::explain::{call_in_words, counted, meaning, table_fault};
use line::text::given::read_given_list;
use line::text::hex;
use line::text::input::{read_input, Input};
use line::text::names::Names;

pub const HELP: &str = "\
balkwizu read FILE [--image] [--hex | --calls]

Writes a line in words, as every command takes it (`balkwizu help write`): its
domains, endpoints, rights and calls, by their names where FILE gives some. A
call that no sentence says is written as its words. FILE is an input of linerun,
or a text; `-` is standard input.

  --image  FILE has the bytes of a table alone, as a card has them
  --hex    writes the text of hexadecimal words, also of a table that is refused
  --calls  writes the calls alone, each by its fields in a line

The calls alone are written too where FILE has a list alone. They are written by
the proved writer again, and must give the list as it came: two different lists
of calls are never written in the same words, so these are the calls of the
list. A call that the reader refuses whatever the table, with 10, 11, 13 or 14,
has no such text: it is reported by its number, from 0, and its code.

Exit status: 0 written; 1 the list has such a call, or FILE is refused; 2 bad
usage, or a file that can't be read.
";

/// So many of the calls are reported that have no text.
const REPORTED_MAX: usize = 10;

/// The command: whether there was something to write.
pub fn command(line: &[OsString]) -> Result<bool, String> {
    let options = Options::parse(line, &[], &["--calls", "--hex", "--image"])?;
    if options.has("--hex") {
        options.only("--hex", &["--image"])?;
    }
    let file = options.file()?;
    let (input, names) = match input_of(file, options.has("--image"))? {
        Ok(read) => read,
        Err(refusal) => {
            refused::complain_of("read", file, &refusal);
            return Ok(false);
        }
    };
    if options.has("--hex") {
        let text = match input.table.is_empty() {
            true => hex::write_list(&input.list),
            false => hex::write(&input),
        };
        output::write((names.lines() + &text).as_bytes());
        return Ok(true);
    }
    if options.has("--calls") || input.table.is_empty() {
        return calls_alone(&input.list, &names);
    }
    if let Some((code, why)) = table_fault(&input.table, &names) {
        let why = format!("{why}\n  `balkwizu read --hex` writes the words of a refused table");
        refused::complain_of("read", file, &(code, why));
        return Ok(false);
    }
    output::write(described::write(&input, &names).as_bytes());
    Ok(true)
}

/// The line of a file with its names, or the number that refuses it.
fn input_of(file: &Path, is_image: bool) -> Result<Result<(Input, Names), Refusal>, String> {
    if is_image {
        let image = Input::of_image(&read_input(file)?);
        return Ok(image.map(|input| (input, Names::none())));
    }
    let given = read_given_list(file, (&Names::none(), None))?;
    Ok(Input::parse(&given.bytes).map(|input| (input, given.names)))
}

/// Writes the calls of a list, unless one has no text.
fn calls_alone(list: &[u32], names: &Names) -> Result<bool, String> {
    let values = reference::read(list);
    let refused = refused_calls(list, &values, names);
    if !refused.is_empty() {
        // Standard output is for the text alone.
        complain!("{}", refused.trim_end());
        return Ok(false);
    }
    let calls: Vec<[u32; COLUMNS]> = values.iter().filter_map(to_columns).collect();
    written_again(list)?;
    output::write(in_text(list, &calls, names).as_bytes());
    Ok(true)
}

/// The calls as text. Where names are given, each has them in a comment.
fn in_text(list: &[u32], calls: &[[u32; COLUMNS]], names: &Names) -> String {
    let cut = reference::cut(list);
    let lines = calls.iter().zip(&cut).map(|(columns, call)| {
        let line = calls::write(columns);
        match names.is_empty() {
            true => line,
            false => format!(
                "{:<46}  # {}\n",
                line.trim_end(),
                call_in_words(call, names)
            ),
        }
    });
    lines.collect()
}

/// Reports the calls that have no text: nothing where there is none.
fn refused_calls(list: &[u32], values: &[Value], names: &Names) -> String {
    let cut = reference::cut(list);
    let refused = values.iter().zip(&cut).enumerate();
    let refused = refused.filter_map(|(number, (value, call))| match value {
        Value::Refused(code) => Some(format!(
            "balkwizu read: call {number} is refused with {code} ({}): {}\n",
            meaning(*code),
            call_in_words(call, names)
        )),
        _ => None,
    });
    let refused: Vec<String> = refused.collect();
    let mut reported = refused[..refused.len().min(REPORTED_MAX)].concat();
    if refused.len() > REPORTED_MAX {
        let more = counted(refused.len() - REPORTED_MAX, "call");
        reported += &format!("balkwizu read: {more} more\n");
    }
    reported
}
