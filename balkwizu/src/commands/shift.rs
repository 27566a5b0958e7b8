//! `balkwizu shift`: the lists of a shift run one after another, and its sheet as a table, as a
//! page for the shift leader, or as an input of linetotals.

use std::ffi::OsString;
use std::path::{Path, PathBuf};
use std::time::SystemTime;

use reference::table::endpoints;
use reference::totals::LISTS_MAX;

use line::args::Options;
use line::clock::in_utc;
use line::judging::shift::{Sheet, Shift};
use line::output::{self, complain, say};
use line::pictures::sheet::{self, Shown};
use line::refused::{self, Refusal};
use line::text::differences::differences;
use line::text::given::{read_given, read_given_list, Given};
use line::text::input::{read_at_most, read_once, shown, Input};
use line::text::names::{sizes, Names};

pub const HELP: &str = "\
balkwizu shift LINE [LIST].. [--html OUT]
balkwizu shift --sheet SHEET [LINE] [--html OUT]
balkwizu shift --join LINE [LIST].. > INPUT

Runs the list of LINE and the other lists one after another, by the proved
kernel, and prints the sheet of the shift: what each endpoint was sent,
received, lost and has waiting, and each call that was refused. The counts are
compared with the reference; they are those that linetotals prints.

  balkwizu shift four.txt evening.txt --html shift.html

LINE is an input of linerun or a text, as `balkwizu help write` describes it. A
LIST may be the same, or a text with a list alone: words after `list`, or calls,
which may use the names of LINE. A LIST with a table or with names must be of
the same line: its table is LINE's, or the one that the lists before it leave.

  --html OUT     writes a page too: to read, and to print on A4
  --sheet SHEET  shows what linetotals printed, with names and owners from LINE
  --join         writes the input of linetotals: the table, then each list with
                 its length in words before it

A list above 4,096 words, or an input that is cut short, ends the shift: what
ran before it is shown, and no list after it runs.

Exit status: 0 all lists ran; 1 a list, the table or SHEET is refused; 2 bad
usage, mistakes in a text, or a file that can't be read or written.
";

/// The longest sheet that is shown: far more than 32 endpoints need.
const SHEET_BYTES_MAX: usize = 100_000;

/// The command: whether all lists ran.
pub fn command(line: &[OsString]) -> Result<bool, String> {
    let options = Options::parse(line, &["--html", "--sheet"], &["--join"])?;
    let printed = options.path("--sheet");
    let files = options.files.iter().map(PathBuf::as_path);
    let read: Vec<&Path> = files.chain(printed).collect();
    read_once(&read)?;
    if let Some(out) = options.path("--html") {
        output::may_write("--html", out, &read)?;
    }
    if options.has("--join") {
        options.only("--join", &[])?;
    }
    match printed {
        Some(printed) => of_sheet(printed, &options),
        None => of_lists(&options),
    }
}

/// Shows what linetotals printed.
fn of_sheet(printed: &Path, options: &Options) -> Result<bool, String> {
    if options.files.len() > 1 {
        return Err("--sheet takes one LINE: its lists ran already".to_string());
    }
    let given = options.files.first().map(read_given).transpose()?;
    let text = read_at_most(printed, SHEET_BYTES_MAX)?;
    let sheet = match sheet::read(&String::from_utf8_lossy(&text)) {
        Ok(sheet) => sheet,
        Err(why) => {
            let file = shown(printed);
            complain!("balkwizu shift: {file} is no sheet of linetotals: {why}");
            return Ok(false);
        }
    };
    let table = match given.as_ref().map(Given::accepted).transpose() {
        Ok(input) => input.map(|input| input.table),
        Err(refusal) => return Ok(complained(&options.files[0], &refusal)),
    };
    let rows = sheet.rows.len();
    if table
        .as_ref()
        .is_some_and(|table| endpoints(table) != rows && rows > 0)
    {
        let (line, sheet) = (shown(&options.files[0]), shown(printed));
        return Err(format!("{line} has not as many endpoints as {sheet}"));
    }
    let names = given.map_or(Names::none(), |given| given.names);
    let known = (table.as_deref(), &names);
    show(
        options,
        &shown_sheet(&sheet, known, &in_utc(SystemTime::now())),
    )
}

/// A sheet of which nothing else is known than its line.
fn shown_sheet<'a>(
    sheet: &'a Sheet,
    (table, names): (Option<&'a [u32]>, &'a Names),
    made: &'a str,
) -> Shown<'a> {
    Shown {
        sheet,
        made,
        table,
        names,
        ran: &[],
        refused: &[],
        stopped: None,
    }
}

/// The first of not too many files.
fn first_of(files: &[PathBuf]) -> Result<&Path, String> {
    match (files.first(), files.len()) {
        (Some(first), ..=LISTS_MAX) => Ok(first),
        (Some(_), _) => Err("more than 65,536 lists".to_string()),
        (None, _) => Err("LINE is missing; --help says what is wanted".to_string()),
    }
}

/// Runs the lists, and shows or joins them.
fn of_lists(options: &Options) -> Result<bool, String> {
    let first = first_of(&options.files)?;
    let given = read_given(first)?;
    let input = match given.accepted() {
        Ok(input) => input,
        Err(refusal) => return Ok(complained(first, &refusal)),
    };
    let mut shift = Shift::begin(&input.table);
    shift.run(&shown(first), &input.list)?;
    let stopped = match run_others(&mut shift, &given, &input.table, &options.files[1..])? {
        None => None,
        Some((file, Wrong::Refused(refusal))) => {
            complained(file, &refusal);
            Some((file, refusal))
        }
        Some((file, Wrong::OfAnother(why))) => {
            let (file, first) = (shown(file), shown(first));
            complain!("balkwizu shift: {file} isn't of the line of {first}: {why}");
            return Ok(false);
        }
    };
    let sheet = shift.sheet(stopped.as_ref().map_or(0, |(_, (code, _))| *code))?;
    if options.has("--join") {
        let all = stopped.is_none();
        output::write(if all { shift.joined() } else { Vec::new() }.as_slice());
        return Ok(all);
    }
    let stopped = stopped.map(|(file, refusal)| {
        let (file, why) = (shown(file), refused::in_words(&refusal));
        format!("{file} was {why}")
    });
    let line = (input.table.as_slice(), &given.names);
    shown_lists(options, &shift, &sheet, line, stopped)
}

/// Runs the lists of other files after the first; the one that can't run, and why.
fn run_others<'a>(
    shift: &mut Shift,
    first: &Given,
    start: &[u32],
    files: &'a [PathBuf],
) -> Result<Option<(&'a Path, Wrong)>, String> {
    for file in files {
        let other = read_given_list(file, (&first.names, Some(sizes(start))))?;
        match list_of(&other, first, start, &shift.table) {
            Ok(list) => shift.run(&shown(file), &list)?,
            Err(wrong) => return Ok(Some((file, wrong))),
        }
    }
    Ok(None)
}

/// Shows the lists that ran.
fn shown_lists(
    options: &Options,
    shift: &Shift,
    sheet: &Sheet,
    (table, names): (&[u32], &Names),
    stopped: Option<String>,
) -> Result<bool, String> {
    let made = in_utc(SystemTime::now());
    let shown = Shown {
        ran: &shift.ran,
        refused: &shift.refused,
        stopped,
        ..shown_sheet(sheet, (Some(table), names), &made)
    };
    show(options, &shown)
}

/// Why a list doesn't run.
enum Wrong {
    /// It is refused, or its table is.
    Refused(Refusal),
    /// It is of another line.
    OfAnother(String),
}

/// The list of a file of the same line as the first, whose table is given, and the one that
/// the lists before leave.
fn list_of(other: &Given, first: &Given, start: &[u32], now: &[u32]) -> Result<Vec<u32>, Wrong> {
    let Input { table, list } = Input::parse(&other.bytes).map_err(Wrong::Refused)?;
    if let Some(why) = other.names.differ_from(&first.names) {
        return Err(Wrong::OfAnother(format!("{why} there")));
    }
    if table.is_empty() || table == start || table == now {
        return Ok(list);
    }
    other.accepted().map_err(Wrong::Refused)?;
    let differing = differences(&table, start, &first.names);
    let why = differing
        .first()
        .map_or(String::new(), |one| one.what.clone());
    let more = match differing.len() {
        0 | 1 => String::new(),
        many => format!(" (and {} more)", many - 1),
    };
    Err(Wrong::OfAnother(format!(
        "its table differs in {why}{more}"
    )))
}

/// Says that a file is refused.
fn complained(file: &Path, refusal: &Refusal) -> bool {
    refused::complain_of("shift", file, refusal);
    false
}

/// Prints the sheet, and writes the page where it is wanted; whether all lists ran.
fn show(options: &Options, shift: &Shown) -> Result<bool, String> {
    output::write(shift.text().as_bytes());
    if let Some(out) = options.path("--html") {
        output::write_file(out, &shift.page())?;
        say!("page written to {}", output::shown(out));
    }
    Ok(shift.sheet.code == 0)
}
