//! A program as its tests run it: its exit status, what it prints and what it says of an
//! error, with files in a folder of its own for each test.

use std::fs;
use std::ops::Range;
use std::path::PathBuf;
use std::process::{Command, Output};
use std::thread;
use std::time::Duration;

use crate::judging::trying::Draws;
use reference::example::{LIST_L, TABLE_T};
use reference::words::to_bytes;

/// A program, and the folder that its tests may write in.
pub struct Trial {
    pub program: &'static str,
    pub folder: &'static str,
}

/// Options of `commission` with which there is no campaign, or another one.
const NO_CAMPAIGN: [&str; 3] = ["--answers", "--left", "--campaign"];

impl Trial {
    /// Runs the program. A kernel is commissioned without a campaign, which takes its time.
    pub fn run(&self, line: &[&str]) -> Output {
        let campaign: &[&str] = match line {
            ["commission", _, rest @ ..] if !rest.iter().any(|word| NO_CAMPAIGN.contains(word)) => {
                &["--campaign", "0"]
            }
            _ => &[],
        };
        let ran = Command::new(self.program)
            .args(line)
            .args(campaign)
            .output();
        ran.expect("the program starts")
    }

    /// The exit status, what is printed and what is said of an error.
    pub fn ran(&self, line: &[&str]) -> (i32, String, String) {
        let output = self.run(line);
        (status(&output), text(output.stdout), text(output.stderr))
    }

    pub fn status(&self, line: &[&str]) -> i32 {
        status(&self.run(line))
    }

    pub fn printed(&self, line: &[&str]) -> String {
        text(self.run(line).stdout)
    }

    /// What is said on standard error.
    pub fn complaint(&self, line: &[&str]) -> String {
        text(self.run(line).stderr)
    }

    /// A path for a file, in a folder of its own for each test: a test's thread has its name.
    pub fn path(&self, name: &str) -> String {
        let test = thread::current().name().unwrap_or("main").to_string();
        let folder = PathBuf::from(self.folder).join(test);
        fs::create_dir_all(&folder).expect("a folder can be made");
        let path = folder.join(name);
        path.to_str().expect("a plain path").to_string()
    }

    /// A file of its own for each test.
    pub fn file(&self, name: &str, bytes: impl AsRef<[u8]>) -> String {
        fs::write(self.path(name), bytes).expect("a file can be written");
        self.path(name)
    }
}

fn status(output: &Output) -> i32 {
    output.status.code().expect("it ends of its own accord")
}

fn text(bytes: Vec<u8>) -> String {
    String::from_utf8(bytes).expect("text")
}

/// The worked example of document 01 as an input of linerun.
pub fn worked_example() -> Vec<u8> {
    to_bytes(&[&[34], &TABLE_T[..], &LIST_L[..]].concat())
}

/// Draws of a seed, each with little time.
pub fn draws(numbers: Range<u64>) -> Draws {
    Draws {
        seed: 1,
        numbers,
        limit: Duration::from_millis(500),
    }
}
