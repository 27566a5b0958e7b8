//! Words read back from a line, as whoever reads them back has them: little-endian
//! bytes, a text of hexadecimal words, what linerun prints, or a text with a table.

use std::path::Path;

use reference::words::from_bytes;

use crate::text::answers;
use crate::text::explain::counted;
use crate::text::hex::{self, items_of, lines_of, words_of};
use crate::text::input::{read_typed, typed, Input};

/// The most words that are taken: far more than the answers of the longest list, so that
/// a few repetitions too many can't take all memory.
const WORDS_MAX: usize = 100_000;

/// The bytes of a file, and the words that they are or that its text gives.
pub struct Dump {
    pub bytes: Vec<u8>,
    pub words: Vec<u32>,
}

/// The words of a file, or what is wrong with it.
pub fn read_dump(path: impl AsRef<Path>) -> Result<Dump, String> {
    read_typed(path.as_ref(), |bytes| {
        let words = words_in(&bytes)?;
        Ok(Dump { bytes, words })
    })
}

fn words_in(bytes: &[u8]) -> Result<Vec<u32>, String> {
    if let Some(text) = typed(bytes)? {
        return words_of_text(text);
    }
    if bytes.len() > 4 * WORDS_MAX {
        return Err("more than 100,000 words".to_string());
    }
    match bytes.len() % 4 {
        0 => Ok(from_bytes(bytes)),
        left => {
            let left = counted(left, "byte");
            Err(format!("{left} left over after the last whole word"))
        }
    }
}

/// The words of a text: the answers that linerun printed, the table of a text that has one, or
/// words alone, where `#` starts a comment and `F0000000*8` is a word eight times.
fn words_of_text(text: &str) -> Result<Vec<u32>, String> {
    if answers::is_printed(text) {
        return answers::read(text);
    }
    match has_table(text) {
        true => table_of(text),
        false => words_alone(text),
    }
}

/// Whether a text has a table by its label, as `balkwizu run` writes it.
fn has_table(text: &str) -> bool {
    lines_of(text).any(|(_, line)| {
        items_of(line)
            .first()
            .is_some_and(|item| item.text == "table")
    })
}

fn table_of(text: &str) -> Result<Vec<u32>, String> {
    let given = hex::read(text)?;
    Input::parse(&given.bytes)
        .map(|input| input.table)
        .map_err(|(_, why)| why)
}

fn words_alone(text: &str) -> Result<Vec<u32>, String> {
    let numbered = lines_of(text).flat_map(|(number, line)| {
        let items = items_of(line).into_iter();
        items.map(move |item| (number, item))
    });
    let mut words = Vec::new();
    for (number, item) in numbered {
        words.extend(words_of(item.text).map_err(|why| format!("line {number}: {why}"))?);
        if words.len() > WORDS_MAX {
            return Err(format!("line {number}: more than 100,000 words"));
        }
    }
    Ok(words)
}

#[cfg(test)]
mod tests {
    use super::*;
    use reference::words::to_bytes;

    #[test]
    fn both_forms_give_the_same_words() {
        let words = vec![0x1000_0302, 0xF000_0000, 0xF000_0000, 0xF000_0000, 5];
        assert_eq!(words_in(&to_bytes(&words)), Ok(words.clone()));
        let text = b"10000302 # word 0\r\n0xF0000000*3; 00000005\n";
        assert_eq!(words_in(text), Ok(words));
        assert_eq!(words_in(b""), Ok(vec![]));
        assert_eq!(words_in(b"# nothing\n"), Ok(vec![]));
    }

    #[test]
    fn what_a_run_writes_is_read() {
        let text = b"domain 0 link\ntable\n10000100\n20000000\nlist\n";
        assert_eq!(words_in(text), Ok(vec![0x1000_0100, 0x2000_0000]));
        let printed = b"calls 1 code 0\ncall 0 caller 1 kind 3 code 0 data 5 7\n";
        assert_eq!(words_in(printed), Ok(vec![0x3040_0000, 5, 7]));
    }

    #[test]
    fn what_is_wrong_is_said() {
        let wrong = |bytes: &[u8]| words_in(bytes).unwrap_err();
        let left = "3 bytes left over after the last whole word";
        assert_eq!(wrong(&[0; 7]), left);
        assert!(wrong(b"10000302\n2000000").starts_with("line 2: `2000000` is no word"));
        assert!(wrong(b"10000302 list").starts_with("line 1: `list` is no word"));
        let printed = wrong(b"calls 2 code 0\n");
        assert_eq!(printed, "its first line says 2 calls, and it has 0");
        assert_eq!(wrong(&[0; 400_001]), "more than 100,000 words");
        assert!(wrong(b"10000302\n# \xFC").starts_with("line 2 has a letter"));
        let many = "F0000000*4097 ".repeat(25);
        assert_eq!(wrong(many.as_bytes()), "line 1: more than 100,000 words");
    }
}
