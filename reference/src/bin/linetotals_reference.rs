//! The end-of-shift sheet as the separate implementation has it: reads standard input
//! as far as `reference::totals_of` does and prints what that gives for it.

use std::io::{self, Write};

fn main() -> io::Result<()> {
    let sheet = reference::totals_of(&mut io::stdin().lock());
    io::stdout().lock().write_all(&sheet)
}
