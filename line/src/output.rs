//! What the commands print, and the files that they write. On a terminal lines are broken at
//! its width. Where nobody reads what is printed any more the program just ends, as a program
//! in a pipe should.

use std::env;
use std::fs;
use std::io::IsTerminal;
use std::os::fd::AsRawFd;
use std::os::unix::fs::MetadataExt;
use std::path::Path;

/// Prints a line on standard error, put together as by `format!`. Where that can't be
/// written nobody reads it.
#[macro_export]
macro_rules! complain {
    ($($parts:tt)*) => {{
        use std::io::Write;
        let mut out = std::io::stderr();
        let line = $crate::output::for_terminal(format!($($parts)*), &out);
        let _ = writeln!(out, "{line}");
    }};
}

/// In tests, where what is printed is kept back.
#[cfg(test)]
pub fn write(bytes: &[u8]) {
    print!("{}", String::from_utf8_lossy(bytes));
}

/// Writes to standard output, or ends the program with 2.
#[cfg(not(test))]
pub fn write(bytes: &[u8]) {
    use std::io::{ErrorKind, Write};
    use std::process::exit;

    let text = String::from_utf8(bytes.to_vec());
    let text = text.map(|text| for_terminal(text, &std::io::stdout()).into_bytes());
    let bytes = text.unwrap_or_else(|no_text| no_text.into_bytes());
    let out = crate::closed::standard_output();
    if let Err(why) = out.and_then(|mut out| out.write_all(&bytes)) {
        if why.kind() != ErrorKind::BrokenPipe {
            complain!("{}: cannot write: {why}", crate::program::name());
        }
        exit(2);
    }
}

/// What a path is called in messages: a control character is written as its escape, so that
/// a name can't take a line of its own.
pub fn shown(path: impl AsRef<Path>) -> String {
    let path = path.as_ref().display().to_string();
    let letters = path.chars().map(|letter| match letter.is_control() {
        true => letter.escape_default().to_string(),
        false => letter.to_string(),
    });
    letters.collect()
}

/// That a file may be written which an option names: it doesn't look like an option, its
/// folder is there, and it is none of those that are read, which would be overwritten.
pub fn may_write(option: &str, out: &Path, read: &[&Path]) -> Result<(), String> {
    let shown = shown(out);
    if out.as_os_str().is_empty() {
        return Err(format!("{option} needs a file's name"));
    }
    if out.as_os_str().as_encoded_bytes().starts_with(b"-") {
        return Err(format!(
            "{option} needs a file's name: for a file {shown} write ./{shown}"
        ));
    }
    if out.is_dir() {
        return Err(format!(
            "{option} {shown} is a folder: a file's name is needed"
        ));
    }
    if let Some(folder) = no_folder(out) {
        return Err(format!("{option} {shown}: there is no folder {folder}"));
    }
    let opened = |path| match path == Path::new("-") {
        true => Path::new("/dev/stdin"),
        false => path,
    };
    match read.iter().any(|read| are_one(opened(read), out)) {
        true => Err(format!(
            "{option} {shown} is the input, which it would overwrite"
        )),
        false => Ok(()),
    }
}

/// That two options name a file each, where both are given: the second would overwrite what
/// the first wrote.
pub fn may_write_both(one: Named, other: Named) -> Result<(), String> {
    match (one, other) {
        ((one, Some(first)), (other, Some(second))) if are_one(first, second) => {
            Err(format!("{one} and {other} need a file each"))
        }
        _ => Ok(()),
    }
}

/// An option, and the file that it names.
pub type Named<'a> = (&'a str, Option<&'a Path>);

/// Whether two paths lead to one file, which need not be there yet.
fn are_one(one: &Path, other: &Path) -> bool {
    let identity = |path: &Path| fs::metadata(path).map(|file| (file.dev(), file.ino())).ok();
    let place = |path: &Path| {
        Some(
            folder_of(path)?
                .canonicalize()
                .ok()?
                .join(path.file_name()?),
        )
    };
    one == other
        || identity(one).is_some() && identity(one) == identity(other)
        || place(one).is_some() && place(one) == place(other)
}

/// The folder of a file, which need not be there.
fn folder_of(file: &Path) -> Option<&Path> {
    let folder = file.parent()?;
    match folder.as_os_str().is_empty() {
        true => Some(Path::new(".")),
        false => Some(folder),
    }
}

/// The folder of a file, where there is none.
fn no_folder(out: &Path) -> Option<String> {
    let folder = folder_of(out)?;
    (!folder.is_dir()).then(|| shown(folder))
}

/// Writes a file.
pub fn write_file(out: &Path, bytes: &(impl AsRef<[u8]> + ?Sized)) -> Result<(), String> {
    fs::write(out, bytes).map_err(|why| format!("cannot write {}: {why}", shown(out)))
}

/// Breaks the lines of a text at the width of a terminal, where `out` is one.
pub fn for_terminal(text: String, out: &(impl IsTerminal + AsRawFd)) -> String {
    match width(out) {
        Some(width) => fitted(&text, width),
        None => text,
    }
}

/// The width of a terminal: what COLUMNS says, or the terminal itself.
fn width(out: &(impl IsTerminal + AsRawFd)) -> Option<usize> {
    if !out.is_terminal() {
        return None;
    }
    let given = env::var("COLUMNS").ok().and_then(|text| text.parse().ok());
    given
        .or_else(|| asked_width(out.as_raw_fd()))
        .filter(|width| *width >= WIDTH_MIN)
}

/// Lines aren't broken where they would be shorter than this.
const WIDTH_MIN: usize = 40;

fn asked_width(file: i32) -> Option<usize> {
    extern "C" {
        fn ioctl(file: i32, request: u64, ...) -> i32;
    }
    const SIZE_OF_THE_WINDOW: u64 = 0x5413;
    let mut size = [0_u16; 4];
    // SAFETY: this request writes four numbers of 16 bits, rows and columns first.
    let code = unsafe { ioctl(file, SIZE_OF_THE_WINDOW, size.as_mut_ptr()) };
    (code == 0).then_some(usize::from(size[1]))
}

/// A text whose lines are not longer than a width, as far as its words are not. What is
/// broken goes on under the last column of its line, or further in than its start.
fn fitted(text: &str, width: usize) -> String {
    let line = |line: &str| {
        let body = line.trim_end_matches('\n');
        if body.chars().count() <= width {
            return line.to_string();
        }
        let indent = body.len() - body.trim_start_matches(' ').len();
        let (letters, most) = (body.as_bytes(), body.len().min(width / 2));
        let column = (2..most).rfind(|&at| letters[at] != b' ' && letters[at - 2..at] == *b"  ");
        let (head, under) = match column {
            Some(column) if column > indent => (column, column),
            _ => (indent.min(most), indent.min(most) + 2),
        };
        let lines = wrapped(&body[head..], width - under);
        let lines = lines.join(&format!("\n{}", " ".repeat(under)));
        format!("{}{lines}{}", &body[..head], &line[body.len()..])
    };
    text.split_inclusive('\n').map(line).collect()
}

/// Breaks a line between words into lines of so many letters at most.
pub fn wrapped(line: &str, most: usize) -> Vec<String> {
    let mut lines = vec![String::new()];
    for word in line.split(' ') {
        let last = lines.last_mut().expect("there is a line");
        if last.is_empty() {
            last.push_str(word);
        } else if last.chars().count() + 1 + word.chars().count() <= most {
            last.push(' ');
            last.push_str(word);
        } else {
            lines.push(word.to_string());
        }
    }
    lines
}

/// Prints a line, put together as by `format!`.
#[macro_export]
macro_rules! say {
    ($($parts:tt)*) => {
        $crate::output::write(format!("{}\n", format_args!($($parts)*)).as_bytes())
    };
}

pub use crate::{complain, say};

#[cfg(test)]
mod tests {
    use super::*;
    use crate::scratch::Folder;

    #[test]
    fn a_name_has_no_line_of_its_own() {
        assert_eq!(
            shown("a\n\u{1B}[31mb\u{85}\u{E9}"),
            "a\\n\\u{1b}[31mb\\u{85}\u{E9}"
        );
    }

    #[test]
    fn a_long_line_is_broken_between_words() {
        assert_eq!(wrapped("ab cd ef", 5), ["ab cd", "ef"]);
        assert_eq!(wrapped("abcdefg h", 5), ["abcdefg", "h"]);
        assert_eq!(wrapped("ab", 5), ["ab"]);
    }

    #[test]
    fn the_lines_of_a_text_fit_a_terminal() {
        let text = "   0  20000100  domain 0 sends 5 to endpoint 1\nshort\n  one two three four";
        let wanted =
            "   0  20000100  domain 0 sends 5\n                to endpoint 1\nshort\n  one \
                      two three four";
        assert_eq!(fitted(text, 34), wanted);
        let indented = format!("  word 7, {}\n", "the rights of domain 1 ".repeat(3));
        let broken = fitted(&indented, 40);
        assert!(
            broken.lines().all(|line| line.chars().count() <= 40),
            "{broken}"
        );
        assert!(
            broken.starts_with("  word 7, ") && broken.ends_with('\n'),
            "{broken}"
        );
        assert!(
            broken.lines().skip(1).all(|line| line.starts_with("    ")),
            "{broken}"
        );
        let words =
            |text: &str| -> Vec<String> { text.split_whitespace().map(str::to_string).collect() };
        assert_eq!(words(&broken), words(&indented));
    }

    #[test]
    fn nothing_is_broken_in_a_file() {
        let file = fs::File::open("/dev/null").unwrap();
        let long = "word ".repeat(100);
        assert_eq!(for_terminal(long.clone(), &file), long);
    }

    #[test]
    fn two_options_need_a_file_each_however_it_is_called() {
        let folder = Folder::make("outputs").unwrap();
        let at = |name: &str| folder.path().join(name);
        let both = |one: &str, other: &str| {
            let (one, other) = (at(one), at(other));
            may_write_both(("--a", Some(&one)), ("--b", Some(&other)))
        };
        let twice = Err("--a and --b need a file each".to_string());
        assert_eq!(both("x", "y"), Ok(()));
        assert_eq!(both("x", "x"), twice);
        assert_eq!(both("x", "./x"), twice, "neither is there yet");
        fs::write(at("x"), "").unwrap();
        fs::hard_link(at("x"), at("z")).unwrap();
        assert_eq!(both("x", "z"), twice);
        assert_eq!(
            may_write_both(("--a", None), ("--b", Some(&at("x")))),
            Ok(())
        );
    }
}
