//! The command line: options, their values and what else is given.

use std::ffi::{OsStr, OsString};
use std::ops::Range;
use std::os::unix::ffi::OsStrExt;
use std::path::{Path, PathBuf};
use std::slice::Iter;
use std::time::Duration;

use crate::output::shown;

/// A command's line taken apart.
#[derive(Debug, Clone, Default, PartialEq, Eq)]
pub struct Options {
    /// What is no option, in order.
    pub files: Vec<PathBuf>,
    values: Vec<Value>,
    flags: Vec<String>,
}

/// The longest time that can be given, in seconds: a day.
const TIME_MAX: u64 = 86_400;

/// The value of an option: as it was given, for it may name a file, and as text.
#[derive(Debug, Clone, PartialEq, Eq)]
struct Value {
    option: String,
    given: OsString,
    text: String,
}

impl Options {
    /// Takes a line apart. `valued` are the options that take a value, as
    /// `--seed 7` or `--seed=7`; `flags` those that take none. Behind `--` there are
    /// no more options.
    pub fn parse(line: &[OsString], valued: &[&str], flags: &[&str]) -> Result<Options, String> {
        let mut options = Options::default();
        let mut rest = line.iter();
        while let Some(word) = rest.next() {
            if word == "--" {
                options.files.extend(rest.by_ref().map(PathBuf::from));
            } else if is_option(word) {
                options.add(word, &mut rest, valued, flags)?;
            } else {
                options.files.push(PathBuf::from(word));
            }
        }
        Ok(options)
    }

    /// Adds an option, with its value where it takes one: behind `=`, or the next word.
    fn add(
        &mut self,
        word: &OsStr,
        rest: &mut Iter<OsString>,
        valued: &[&str],
        flags: &[&str],
    ) -> Result<(), String> {
        let mut parts = word.as_bytes().splitn(2, |&byte| byte == b'=');
        let name = parts
            .next()
            .map(String::from_utf8_lossy)
            .unwrap_or_default();
        let joined = parts
            .next()
            .map(|value| OsStr::from_bytes(value).to_owned());
        if self.is_given(&name) {
            return Err(format!("{name} is given twice"));
        }
        if flags.contains(&&*name) && joined.is_none() {
            self.flags.push(name.to_string());
        } else if valued.contains(&&*name) {
            let given = joined.or_else(|| rest.next().cloned());
            let given = given.ok_or_else(|| format!("{name} needs a value"))?;
            self.values.push(Value {
                option: name.to_string(),
                text: given.to_string_lossy().to_string(),
                given,
            });
        } else {
            let word = word.to_string_lossy();
            return Err(format!("there is no option {word}; --help lists them"));
        }
        Ok(())
    }

    fn is_given(&self, name: &str) -> bool {
        self.has(name) || self.value(name).is_some()
    }

    pub fn has(&self, flag: &str) -> bool {
        self.flags.iter().any(|given| given == flag)
    }

    /// The value given for an option.
    pub fn text(&self, name: &str) -> Option<&str> {
        self.value(name).map(|value| value.text.as_str())
    }

    /// The same where it names a file, which can be called anything.
    pub fn path(&self, name: &str) -> Option<&Path> {
        self.value(name).map(|value| Path::new(&value.given))
    }

    fn value(&self, name: &str) -> Option<&Value> {
        self.values.iter().find(|value| value.option == name)
    }

    /// The number given for an option. Commas are left out: 300,000 is 300000.
    pub fn number(&self, name: &str) -> Result<Option<u64>, String> {
        let Some(text) = self.text(name) else {
            return Ok(None);
        };
        let digits = text.replace([',', '_'], "");
        match digits.parse() {
            Ok(number) => Ok(Some(number)),
            Err(_) => Err(format!("{name} needs a whole number, not `{text}`")),
        }
    }

    /// The numbers of what is to be tried: `count` of them, which `name` asks for,
    /// from `--from` on.
    pub fn numbers(&self, name: &str, count: u64) -> Result<Range<u64>, String> {
        let from = self.number("--from")?.unwrap_or(0);
        match from.checked_add(count) {
            Some(end) => Ok(from..end),
            None => Err(format!(
                "--from {from} and {name} {count} together go beyond 2^64 - 1"
            )),
        }
    }

    /// The time that `--time` gives, in whole seconds.
    pub fn time(&self, seconds: u64) -> Result<Duration, String> {
        match self.number("--time")?.unwrap_or(seconds) {
            0 => Err("--time 0 leaves no time".to_string()),
            seconds @ ..=TIME_MAX => Ok(Duration::from_secs(seconds)),
            seconds => Err(format!(
                "--time {seconds} is too long: a day has {TIME_MAX} seconds"
            )),
        }
    }

    /// A number from 1 on that an option gives, or else the usual one.
    pub fn within(&self, name: &str, usual: u64, most: u64) -> Result<usize, String> {
        match self.number(name)?.unwrap_or(usual) {
            number if (1..=most).contains(&number) => Ok(number as usize),
            other => Err(format!("{name} takes 1 to {most}, not {other}")),
        }
    }

    /// That no other options are given than `what` is told with, which may be one itself.
    pub fn only(&self, what: &str, options: &[&str]) -> Result<(), String> {
        let values = self.values.iter().map(|value| &value.option);
        let mut given = values.chain(&self.flags);
        match given.find(|given| *given != what && !options.contains(&given.as_str())) {
            Some(other) => Err(format!("{other} is not for {what}")),
            None => Ok(()),
        }
    }

    /// The one file that a command is about.
    pub fn file(&self) -> Result<&Path, String> {
        match self.files.as_slice() {
            [file] => Ok(file),
            [] => Err("no file is given; --help says what is wanted".to_string()),
            [_, second, ..] => Err(format!(
                "one file at a time: `{}` is a second one",
                shown(second)
            )),
        }
    }

    /// The file that a command reads and the one that it writes.
    pub fn two_files(&self) -> Result<(&Path, &Path), String> {
        match self.files.as_slice() {
            [from, to] => Ok((from, to)),
            few @ ([] | [_]) => Err(format!(
                "two files are needed, IN and OUT; {} given",
                few.len()
            )),
            [_, _, third, ..] => Err(format!(
                "two files are enough: `{}` is a third one",
                shown(third)
            )),
        }
    }

    /// For commands that are about no file.
    pub fn no_file(&self) -> Result<(), String> {
        match self.files.first() {
            None => Ok(()),
            Some(file) => Err(format!("`{}` is not expected here", shown(file))),
        }
    }
}

/// Whether a word of the line is meant as an option: `-` alone is standard input.
fn is_option(word: &OsStr) -> bool {
    word != "-" && word.as_bytes().starts_with(b"-")
}

#[cfg(test)]
mod tests {
    use super::*;

    fn parsed(line: &str) -> Result<Options, String> {
        let words: Vec<OsString> = line.split_whitespace().map(OsString::from).collect();
        Options::parse(
            &words,
            &["--seed", "--cases", "--from", "--time"],
            &["--quiet"],
        )
    }

    #[test]
    fn options_flags_and_files_in_any_order() {
        let options = parsed("a.bin --seed 7 --quiet --cases=300,000").unwrap();
        assert_eq!(options.file(), Ok(Path::new("a.bin")));
        assert_eq!(options.number("--seed"), Ok(Some(7)));
        assert_eq!(options.number("--cases"), Ok(Some(300_000)));
        assert!(options.has("--quiet"));
        assert!(!parsed("a.bin").unwrap().has("--quiet"));
    }

    #[test]
    fn behind_two_dashes_there_are_no_options() {
        let options = parsed("--quiet -- --seed").unwrap();
        assert_eq!(options.file(), Ok(Path::new("--seed")));
        assert!(options.has("--quiet"));
        let options = parsed("-- -- -x").unwrap();
        assert_eq!(options.files, [Path::new("--"), Path::new("-x")]);
        assert_eq!(parsed("-").unwrap().file(), Ok(Path::new("-")));
    }

    #[test]
    fn a_file_can_be_called_anything() {
        let odd = OsStr::from_bytes(b"a=\xFF");
        let given = |line: &[&OsStr]| {
            let line: Vec<OsString> = line.iter().map(OsString::from).collect();
            Options::parse(&line, &["--svg"], &[])
        };
        assert_eq!(given(&[odd]).unwrap().file(), Ok(Path::new(odd)));
        let valued = given(&[OsStr::new("--svg"), odd]).unwrap();
        assert_eq!(valued.path("--svg"), Some(Path::new(odd)));
        let joined = given(&[OsStr::from_bytes(b"--svg=a=\xFF")]).unwrap();
        assert_eq!(joined, valued);
        assert_eq!(joined.text("--svg"), Some("a=\u{FFFD}"));
        assert!(given(&[OsStr::from_bytes(b"--\xFF")]).is_err());
    }

    #[test]
    fn an_option_is_given_once() {
        let twice = Err("--seed is given twice".to_string());
        assert_eq!(parsed("--seed 7 --seed 8"), twice);
        assert_eq!(parsed("--seed 7 a --seed=7"), twice);
        let flag = parsed("--quiet --quiet");
        assert_eq!(flag, Err("--quiet is given twice".to_string()));
        let options = parsed("--seed 7 -- --seed 8").unwrap();
        assert_eq!(options.number("--seed"), Ok(Some(7)));
        assert_eq!(options.number("--cases"), Ok(None));
    }

    #[test]
    fn what_is_wrong_is_said() {
        let no_option = |name: &str| Err(format!("there is no option {name}; --help lists them"));
        assert_eq!(parsed("--sed 7"), no_option("--sed"));
        assert_eq!(parsed("--seed"), Err("--seed needs a value".into()));
        assert_eq!(parsed("--quiet=1"), no_option("--quiet=1"));
        assert_eq!(parsed("a -x"), no_option("-x"));
        let wrong = parsed("--seed x").unwrap().number("--seed");
        assert_eq!(wrong, Err("--seed needs a whole number, not `x`".into()));
    }

    #[test]
    fn a_time_is_some_seconds() {
        let time = |line: &str| parsed(line).unwrap().time(10);
        assert_eq!(time(""), Ok(Duration::from_secs(10)));
        assert_eq!(time("--time 3"), Ok(Duration::from_secs(3)));
        assert_eq!(time("--time 0"), Err("--time 0 leaves no time".into()));
        assert_eq!(time("--time 86400"), Ok(Duration::from_secs(86_400)));
        let long = time("--time 18446744073709551615").unwrap_err();
        assert!(long.ends_with("is too long: a day has 86400 seconds"));
    }

    #[test]
    fn a_number_is_within_what_there_can_be() {
        let within = |line: &str| parsed(line).unwrap().within("--cases", 5, 100);
        assert_eq!((within(""), within("--cases 100")), (Ok(5), Ok(100)));
        let wrong = Err("--cases takes 1 to 100, not 0".to_string());
        assert_eq!(within("--cases 0"), wrong);
        assert!(within("--cases 101").is_err());
    }

    #[test]
    fn an_option_that_is_for_something_else_is_told() {
        let only = |line: &str| parsed(line).unwrap().only("--quiet", &["--seed"]);
        assert_eq!(only("file --quiet --seed 7"), Ok(()));
        let wrong = Err("--cases is not for --quiet".to_string());
        assert_eq!(only("--quiet --seed 7 --cases 3"), wrong);
        let flag = parsed("--quiet").unwrap().only("--seed", &[]);
        assert_eq!(flag, Err("--quiet is not for --seed".to_string()));
    }

    #[test]
    fn numbers_beyond_the_largest_are_refused() {
        let numbers = |line: &str, count| parsed(line).unwrap().numbers("--cases", count);
        assert_eq!(numbers("", 3), Ok(0..3));
        assert_eq!(numbers("--from 7", 3), Ok(7..10));
        let last = u64::MAX - 3;
        assert_eq!(numbers(&format!("--from {last}"), 3), Ok(last..u64::MAX));
        let wrong = numbers(&format!("--from {last}"), 4).unwrap_err();
        assert!(wrong.contains("--cases 4 together go beyond"), "{wrong}");
    }

    #[test]
    fn a_command_is_about_one_file_or_none() {
        assert!(parsed("").unwrap().file().is_err());
        assert!(parsed("a b").unwrap().file().unwrap_err().contains("`b`"));
        let two = (Path::new("a"), Path::new("b"));
        assert_eq!(parsed("a b").unwrap().two_files(), Ok(two));
        assert!(parsed("a").unwrap().two_files().is_err());
        assert!(parsed("a b c").unwrap().two_files().is_err());
        assert!(parsed("").unwrap().no_file().is_ok());
        assert!(parsed("a").unwrap().no_file().is_err());
    }
}
