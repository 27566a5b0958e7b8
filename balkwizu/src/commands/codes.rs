//! `balkwizu codes`: what the numbers of refusals mean.

use std::ffi::OsString;

use line::args::Options;
use line::output;
use line::text::explain::{is_code, meaning};

pub const HELP: &str = "\
balkwizu codes [CODE]..

Prints what the numbers mean that the kernel, its programs and its C functions
answer: those given, or all of them. `balkwizu run FILE` says for each call of a
list why it is refused.

Exit status: 0 printed; 2 bad usage, or a number that nothing answers.
";

/// The largest number that is answered.
const LARGEST: u32 = 99;

/// Which numbers are answered by what, as headings of the list.
const HEADINGS: [(u32, &str); 4] = [
    (0, "A call or a run:"),
    (1, "Nothing ran, and nothing was changed:"),
    (10, "A call of the list changed nothing:"),
    (
        30,
        "Functions beside the run: lists written, holders, repair, turns:",
    ),
];

/// The command: whether all that was asked for is printed.
pub fn command(line: &[OsString]) -> Result<bool, String> {
    let options = Options::parse(line, &[], &[])?;
    let asked = options
        .files
        .iter()
        .map(|word| code(&word.to_string_lossy()));
    let asked: Vec<u32> = asked.collect::<Result<_, _>>()?;
    let line = |code: &u32| format!("{code:>2}  {}\n", meaning(*code));
    let lines: String = match asked.is_empty() {
        false => asked.iter().map(line).collect(),
        true => all(),
    };
    output::write(lines.as_bytes());
    Ok(true)
}

/// All numbers, with their headings.
fn all() -> String {
    let codes = (0..=LARGEST).filter(|&code| is_code(code));
    let each = codes.map(|code| {
        let heading = HEADINGS.iter().find(|(first, _)| *first == code);
        let heading = heading.map_or(String::new(), |(_, heading)| format!("{heading}\n"));
        format!("{heading}  {code:>2}  {}\n", meaning(code))
    });
    each.collect()
}

/// The number that a word is, if something answers it.
fn code(word: &str) -> Result<u32, String> {
    let code = word.parse().ok().filter(|&code| is_code(code));
    code.ok_or_else(|| format!("`{word}` is no number that is answered; `balkwizu codes` has them"))
}
