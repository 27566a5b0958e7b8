//! `balkwizu write`: a text into an input of linerun.

use std::ffi::OsString;
use std::path::Path;

use reference::writer::{to_columns, COLUMNS};

use line::args::Options;
use line::kernels::boundary::PROVED_WRITER;
use line::output::{self, complain};
use line::refused::{self, Refusal};
use line::text::given::{read_given, Given};
use line::text::hex;
use line::text::input::{read_once, read_text, shown, Input};
use line::text::names::{sizes, Names};

pub const HELP: &str = "\
balkwizu write FILE [--hex] > INPUT
balkwizu write FILE --table LINE [--hex] > INPUT

Writes the input of linerun that a text describes; with --hex, the text of its
words in hexadecimal. FILE is one of three texts; `-` is standard input, and #
starts a comment. The first is a line in words:

  domain link
  domain loader
  endpoint routes owner loader capacity 4
  rights link on loader: SEND
  calls
    link sends 65 to routes
    loader receives from routes

An endpoint may also have `name 18`, `lost 3` and `waiting 5 6`; its name is its
number plus 1 where none is given. A set of rights is SEND+GRANT, of SEND,
GRANT, REMOVE and REVOKE. Each kind of call has its sentence, with names or
numbers:

  D looks up name N           D sends N to E         D receives from E
  D asks for its endpoints    D asks for its rights  D grants D SET on D
  D gives up SET on D         D takes SET on D back from D

A call may be given by its fields too, and any words as they are:

  look-up caller 0 name 0x11          my-endpoints caller 2
  receive caller 2 endpoint 1         my-rights caller 0
  send caller 0 endpoint 1 message 5  remove caller 1 target 2 rights SEND
  grant caller 1 target 2 recipient 0 rights 1
  revoke caller 1 target 2 holder 0 rights 8
  words F0000009

The second is calls alone, for the line that --table gives, by its names.
Without --table, --hex writes their list. The third is the words of a line:

  domain 0 link                        # or: endpoint 1 drives
  table 10000201 20000000*4 30000011 40000102 50000000 60000000 F0000000*8
  list  20000000 F0000005; 30400000    # F0000000*8 is a word eight times

A name is a word of letters, digits, `-` and `_`, of 24 characters at most. What
will be refused is written with a warning. `balkwizu read` writes a text back.

Exit status: 0 written; 1 LINE is refused; 2 bad usage, a file that can't be
read, or mistakes in the text, each reported by its line and column.
";

/// The command: whether there was something to write.
pub fn command(line: &[OsString]) -> Result<bool, String> {
    let options = Options::parse(line, &["--table"], &["--hex"])?;
    let file = options.file()?;
    let path = options.path("--table");
    read_once(&[file, path.unwrap_or(Path::new(""))])?;
    let of = match path.map(read_given).transpose()?.map(parsed).transpose() {
        Ok(of) => of,
        Err(refusal) => {
            refused::complain_of("write", path.unwrap_or(file), &refusal);
            return Ok(false);
        }
    };
    let text = read_text(file, "`balkwizu read` makes the text of an input")?;
    let read = match &of {
        Some((input, names)) => hex::read_list(&text, names, Some(sizes(&input.table))),
        None => hex::read_list(&text, &Names::none(), None),
    };
    let mut given = read.map_err(|why| format!("{}: {why}", shown(file)))?;
    for warning in &given.warnings {
        complain!("{}: {warning}", shown(file));
    }
    if let Ok(Input { table, list }) = Input::parse(&given.bytes) {
        written_again(&list)?;
        match (of, table.is_empty()) {
            (Some((Input { table, .. }, names)), true) => {
                given.bytes = Input { table, list }.to_bytes();
                given.names = names;
            }
            (None, false) => {}
            (None, true) if options.has("--hex") => {
                output::write(hex::write_list(&list).as_bytes());
                return Ok(true);
            }
            (None, true) => return Err("calls alone need --table LINE, or --hex".to_string()),
            (Some(_), false) => return Err(has_table(file)),
        }
    }
    Ok(write(path.unwrap_or(file), &given, options.has("--hex")))
}

fn has_table(file: &Path) -> String {
    format!("{} has a table: --table is for calls alone", shown(file))
}

fn parsed(given: Given) -> Result<(Input, Names), Refusal> {
    Input::parse(&given.bytes).map(|input| (input, given.names))
}

/// Writes an input, with a warning where it will be refused.
fn write(file: &Path, given: &Given, as_hex: bool) -> bool {
    match (as_hex, Input::parse(&given.bytes)) {
        (false, _) => output::write(&given.bytes),
        (true, Ok(input)) => {
            output::write((given.names.lines() + &hex::write(&input)).as_bytes());
        }
        (true, Err(_)) => output::write(hex::write_bytes(&given.bytes).as_bytes()),
    }
    if let Err(refusal) = given.accepted() {
        refused::warn_of("write", file, &refusal);
    }
    true
}

/// That the proved writer writes the calls of a list in the same words. One that is refused
/// whatever the table isn't written by it, nor a list that has such a call.
pub fn written_again(list: &[u32]) -> Result<(), String> {
    let calls: Option<Vec<[u32; COLUMNS]>> = reference::read(list).iter().map(to_columns).collect();
    let Some(calls) = calls else {
        return Ok(());
    };
    let mut written = vec![0; list.len()];
    let answer = PROVED_WRITER(&calls.concat(), &mut written);
    match answer == (0, list.len()) && written == list {
        true => Ok(()),
        false => Err(format!(
            "the proved writer writes the calls otherwise, with {} and {}",
            answer.0, answer.1
        )),
    }
}
