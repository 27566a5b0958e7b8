//! Stand-ins for `linerun`, for the tests of `bench linerun`. Each prints what the
//! separate implementation prints for what it has read; how it reads is its argument:
//!
//! - `right` stops where the answer is due, or at the end of the input
//! - `late` reads to the end first
//! - `once` takes what one read gives for the whole input

use std::io::{self, Read, Write};

use reference::calls::LIST_WORDS_MAX;
use reference::table::TABLE_WORDS_MAX;
use reference::words::from_bytes;

fn main() -> io::Result<()> {
    let mut stdin = io::stdin().lock();
    let mut input = Vec::new();
    let mut space = [0; 65_536];
    let how = std::env::args().nth(1);
    match how.as_deref() {
        Some("right") => {
            while !decided(&input) {
                match stdin.read(&mut space[..999])? {
                    0 => break,
                    count => input.extend(&space[..count]),
                }
            }
        }
        Some("late") => {
            stdin.read_to_end(&mut input)?;
        }
        _ => {
            let count = stdin.read(&mut space)?;
            input.extend(&space[..count]);
        }
    }
    io::stdout().lock().write_all(&reference::linerun(&input))
}

/// Whether nothing that may follow can alter the answer.
fn decided(input: &[u8]) -> bool {
    let words = from_bytes(input);
    words.first().is_some_and(|&length| {
        let length = length as usize;
        length > TABLE_WORDS_MAX || words.len() > 1 + length + LIST_WORDS_MAX
    })
}
