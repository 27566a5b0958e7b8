//! `linerun` as the separate implementation has it: reads standard input to its
//! end and prints what `reference::linerun` gives for it.

use std::io::{self, Read, Write};

fn main() -> io::Result<()> {
    let mut input = Vec::new();
    // A read that fails counts as the end of the input.
    let _ = io::stdin().lock().read_to_end(&mut input);
    io::stdout().lock().write_all(&reference::linerun(&input))
}
