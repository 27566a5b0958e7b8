//! What the commands print of an input that is refused: the number, what it means, what is
//! wrong, and what mends it.

use std::path::Path;

use reference::repair::PAIR_WORDS;

use crate::kernels::boundary::repair;
use crate::output::{self, complain, say};
use crate::text::explain::meaning;
use crate::text::hex;
use crate::text::input::{read_input, shown, typed, Input};

/// The number that refuses an input or its table, and what is wrong with it.
pub type Refusal = (u32, String);

/// A refusal in words.
pub fn in_words((code, why): &Refusal) -> String {
    format!("refused with {code} ({}): {why}", meaning(*code))
}

/// Prints that a file or its table is refused, what is shown of it, and what mends it.
pub fn report(file: &Path, refusal: &Refusal, of_it: &str) {
    let what = match refusal.0 {
        2..=5 => "table ",
        _ => "",
    };
    say!("{what}{}", in_words(refusal));
    output::write(of_it.as_bytes());
    report_mending(file, refusal);
}

/// Suggests the repair of a file whose table the repair makes fit again: it is tried.
pub fn report_mending(file: &Path, (code, _): &Refusal) {
    if matches!(code, 4 | 5) && is_repairable(file) {
        let file = output::shown(file);
        say!("`balkwizu repair {file} OUT` makes it fit again; without OUT it only says how");
    }
}

/// Whether the table of a file can be repaired. Standard input can't be read again.
fn is_repairable(file: &Path) -> bool {
    if file == Path::new("-") {
        return false;
    }
    let Ok(bytes) = read_input(file) else {
        return false;
    };
    let bytes = match typed(&bytes) {
        Ok(Some(text)) => hex::read(text).map(|given| given.bytes),
        _ => Ok(bytes),
    };
    let input = bytes.ok().and_then(|bytes| Input::parse(&bytes).ok());
    input.is_some_and(|input| takes_repair(&input.table))
}

/// Whether the repair makes a table fit again, or has nothing to do.
pub fn takes_repair(table: &[u32]) -> bool {
    let mut changes = vec![0; PAIR_WORDS * table.len()];
    repair(&mut table.to_vec(), &mut changes).0 == 0
}

/// Says on standard error that a file is refused, for a command whose standard output is
/// for what it makes alone.
pub fn complain_of(command: &str, file: &Path, refusal: &Refusal) {
    let (file, why) = (shown(file), in_words(refusal));
    complain!("balkwizu {command}: {file} is {why}");
}

/// Warns of an input that is written all the same, and that will be refused.
pub fn warn_of(command: &str, file: &Path, refusal: &Refusal) {
    let (file, why) = (shown(file), in_words(refusal));
    complain!("balkwizu {command}: {file} is written, and will be {why}");
}
