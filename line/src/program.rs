//! The frame of both programs: the list of commands and its help, the help of each command,
//! what is said of a command that there isn't, and the exit status.

use std::ffi::{OsStr, OsString};
use std::process::ExitCode;
use std::sync::OnceLock;

use crate::output::{self, complain, say};

/// The release that the programs are of.
pub const VERSION: &str = env!("CARGO_PKG_VERSION");

/// What the program that runs is called.
static NAME: OnceLock<&str> = OnceLock::new();

/// The name of the program that runs, for messages.
pub fn name() -> &'static str {
    NAME.get().copied().unwrap_or("balkwizu")
}

/// A program: its name, what it is for, its commands and what its help ends with.
pub struct Program {
    pub name: &'static str,
    pub purpose: &'static str,
    pub commands: &'static [Command],
    pub foot: &'static str,
}

/// A command of a program.
pub struct Command {
    pub name: &'static str,
    /// What it is given, and what it is for, in the list of commands.
    pub given: &'static str,
    pub purpose: &'static str,
    pub help: &'static str,
    /// Whether all is well, or why it couldn't be done.
    pub act: fn(&[OsString]) -> Result<bool, String>,
}

impl Program {
    /// Does what the command line asks for. The status is 0 where all is well, 1 where
    /// something failed, was refused or differs, and 2 where it couldn't be done.
    pub fn main(&self) -> ExitCode {
        let _ = NAME.set(self.name);
        let line: Vec<OsString> = std::env::args_os().skip(1).collect();
        let Some((command, rest)) = line.split_first() else {
            complain!("{}", self.help().trim_end());
            return ExitCode::from(2);
        };
        match self.perform(command, rest) {
            Ok(true) => ExitCode::SUCCESS,
            Ok(false) => ExitCode::from(1),
            Err(wrong) => {
                complain!("{} {}: {wrong}", self.name, command.to_string_lossy());
                ExitCode::from(2)
            }
        }
    }

    fn help(&self) -> String {
        let name = self.name;
        let row = |line: &str, purpose| format!("  {name} {line:<17} {purpose}\n");
        let listed = self.commands.iter().map(|command| {
            let line = format!("{} {}", command.name, command.given);
            row(&line, command.purpose)
        });
        let listed: String = listed.collect();
        let more = row("help COMMAND", "what a command takes and what it answers")
            + &row("--version", "which release this is");
        format!(
            "{name}: {}\n\n{listed}\n{more}\n{}",
            self.purpose, self.foot
        )
    }

    fn perform(&self, command: &OsStr, rest: &[OsString]) -> Result<bool, String> {
        match command.to_str() {
            Some("help" | "--help" | "-h") => self.print_help(rest),
            Some("--version" | "-V") => {
                say!("{} {VERSION}", self.name);
                Ok(true)
            }
            _ => {
                let found = self.found(command)?;
                match rest.iter().take_while(|word| *word != "--").any(is_help) {
                    true => self.print_help(&[command.to_owned()]),
                    false => (found.act)(rest),
                }
            }
        }
    }

    /// Prints the help of a command, or of all where none is named.
    fn print_help(&self, named: &[OsString]) -> Result<bool, String> {
        let asks_again = |word: &&OsString| is_help(word) || *word == "help";
        match named.first().filter(|word| !asks_again(word)) {
            None => output::write(self.help().as_bytes()),
            Some(command) => output::write(self.found(command)?.help.as_bytes()),
        }
        Ok(true)
    }

    fn found(&self, command: &OsStr) -> Result<&Command, String> {
        let mut commands = self.commands.iter();
        let found = commands.find(|known| command == known.name);
        found.ok_or_else(|| {
            let command = command.to_string_lossy();
            let mut commands = self.commands.iter();
            let meant = commands.find(|known| is_near(&command, known.name));
            let meant = meant.map_or(String::new(), |known| {
                format!(" (is `{}` meant?)", known.name)
            });
            let name = self.name;
            format!("there is no such command as `{command}`{meant}; `{name} --help` lists them")
        })
    }
}

fn is_help(word: &OsString) -> bool {
    word == "--help" || word == "-h"
}

/// Whether a word is a name but for a slip: another case, a letter more, less or wrong, or
/// two exchanged.
fn is_near(word: &str, name: &str) -> bool {
    let letters = |text: &str| text.to_lowercase().chars().collect::<Vec<char>>();
    let (word, name) = (letters(word), letters(name));
    let same = word.iter().zip(&name).take_while(|(a, b)| a == b).count();
    let (word, name) = (&word[same..], &name[same..]);
    match (word, name) {
        ([], []) | ([_], []) | ([], [_]) => true,
        ([], _) | (_, []) => false,
        ([a, word @ ..], [b, name @ ..]) => {
            let exchanged = word.first() == Some(b) && name.first() == Some(a);
            word == name
                || word == [&[*b], name].concat()
                || [&[*a], word].concat() == name
                || exchanged && word[1..] == name[1..]
        }
    }
}

#[cfg(test)]
mod tests {
    use super::*;

    #[test]
    fn a_slip_is_near_and_another_word_is_not() {
        for near in [
            "comission",
            "commissoin",
            "commision",
            "Commission",
            "commissions",
        ] {
            assert!(is_near(near, "commission"), "{near}");
        }
        assert!(is_near("shwo", "show") && is_near("how", "show") && is_near("shaw", "show"));
        for far in ["frobnicate", "", "s", "words", "showing"] {
            assert!(!is_near(far, "show"), "{far}");
        }
    }
}
