//! `balkwizu check`: what is wrong with a line and its list before anything runs.

use std::ffi::OsString;
use std::path::Path;

use reference::machine::refusal;
use reference::writer::to_columns;
use reference::Value;

use line::args::Options;
use line::output::say;
use line::refused;
use line::text::calls::beyond;
use line::text::explain::{call_in_words, counted, meaning, table_fault};
use line::text::given::{given, read_given, Given};
use line::text::input::{is_text, read_at_most, read_once, shown, Input, TEXT_BYTES_MAX};
use line::text::names::{sizes, Names};

pub const HELP: &str = "\
balkwizu check FILE [--table LINE]

Checks a line before it is used: whether its table is accepted, with the code
and the word that refuse it; every mistake of a text, by line and column; and
the calls of its list that are refused on any such table, with 10 to 14: words
that are no call, and callers that the table hasn't. Other numbers that the
table hasn't are warnings. Nothing runs: `balkwizu run FILE` shows what each
call comes to.

FILE is an input of linerun, or any text that `balkwizu write` takes; `-` is
standard input. Calls alone are checked for the line that --table gives, by its
names, or without a table.

Exit status: 0 nothing is wrong, warnings or not; 1 something is; 2 bad usage,
or a file that can't be read.
";

/// So many calls are reported.
const REPORTED_MAX: usize = 20;

/// The command: whether nothing is wrong.
pub fn command(line: &[OsString]) -> Result<bool, String> {
    let options = Options::parse(line, &["--table"], &[])?;
    let file = options.file()?;
    let path = options.path("--table");
    read_once(&[file, path.unwrap_or(Path::new(""))])?;
    let of = path.map(read_given).transpose()?;
    let of = of.map(|of| (Input::parse(&of.bytes).map(|input| input.table), of.names));
    let (table, names) = match of {
        None => (Vec::new(), Names::none()),
        Some((Ok(table), names)) => (table, names),
        Some((Err((_, why)), _)) => return Err(format!("--table: {why}")),
    };
    let bytes = read_at_most(file, TEXT_BYTES_MAX + 1)?;
    let known = (!table.is_empty()).then(|| sizes(&table));
    let (file, is_text) = (shown(file), is_text(&bytes));
    match given(bytes, Some((&names, known))) {
        Ok(given) => checked(&file, &given, path.map(|_| table), is_text),
        Err(mistakes) => {
            for mistake in mistakes.lines() {
                say!("{file}: {mistake}");
            }
            Ok(false)
        }
    }
}

/// Checks the line of a file; whether nothing is wrong. A text may have a list alone, for
/// another's table.
fn checked(file: &str, given: &Given, of: Option<Vec<u32>>, is_text: bool) -> Result<bool, String> {
    let input = match Input::parse(&given.bytes) {
        Ok(input) => input,
        Err(refusal) => {
            say!("{file} is {}", refused::in_words(&refusal));
            return Ok(false);
        }
    };
    let alone = is_text && input.table.is_empty();
    let table = match of {
        Some(_) if !alone => return Err(format!("{file} has a table: --table is for calls alone")),
        Some(table) => table,
        None => input.table,
    };
    let accepted = alone && table.is_empty() || table_accepted(&table, &given.names);
    let calls = reference::cut(&input.list).len();
    let words = counted(input.list.len(), "word");
    say!("list: {} in {words}", counted(calls, "call"));
    let table = if accepted { table } else { Vec::new() };
    let (refused, warnings) = calls_checked(given, &input.list, &table);
    for (all, what) in [(&refused, "calls refused"), (&warnings, "warnings")] {
        for one in all.iter().take(REPORTED_MAX) {
            say!("{one}");
        }
        if all.len() > REPORTED_MAX {
            say!("and {} {what} more", all.len() - REPORTED_MAX);
        }
    }
    Ok(accepted && refused.is_empty())
}

/// Says whether a table is accepted.
fn table_accepted(table: &[u32], names: &Names) -> bool {
    let fault = table_fault(table, names);
    match &fault {
        None => {
            let (n, m) = sizes(table);
            let (n, m) = (counted(n, "domain"), counted(m, "endpoint"));
            say!("table accepted: {n}, {m}, {} words", table.len());
        }
        Some(fault) => say!("table {}", refused::in_words(fault)),
    }
    fault.is_none()
}

/// The calls that are refused with 10 to 14, and warnings of numbers that an accepted table
/// hasn't.
fn calls_checked(given: &Given, list: &[u32], table: &[u32]) -> (Vec<String>, Vec<String>) {
    let (mut refused, mut warnings) = (Vec::new(), Vec::new());
    let calls = reference::cut(list);
    let mut word = 0;
    for (number, (call, value)) in calls.iter().zip(reference::read(list)).enumerate() {
        let line = given.lines.get(word).map(|line| format!("line {line}, "));
        let asked = call_in_words(call, &given.names);
        let at = format!("{}call {number} ({asked})", line.unwrap_or_default());
        word += call.words().len();
        let code = match (&value, table.is_empty()) {
            (Value::Refused(code), _) => Some(*code),
            (_, true) => None,
            _ => refusal(table, call).filter(|code| (10..=14).contains(code)),
        };
        if let Some(code) = code {
            refused.push(format!("{at} is refused with {code}: {}", meaning(code)));
        } else if let Some(columns) = to_columns(&value).filter(|_| !table.is_empty()) {
            let missing = beyond(&columns, sizes(table));
            let warned = missing.iter();
            warnings.extend(warned.map(|what| format!("warning: {at}: the table has no {what}")));
        }
    }
    (refused, warnings)
}
