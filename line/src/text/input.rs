//! What `linerun` reads, and the programs with it: little-endian words, the table's
//! length in words, the table, then the list to the end.

use std::fs::File;
use std::io::{self, Read};
use std::path::Path;

use reference::calls::{cut, LIST_WORDS_MAX};
use reference::table::{domains, endpoints, TABLE_WORDS_MAX};
use reference::words::{from_bytes, to_bytes};

use crate::output;
use crate::text::explain::counted;

/// The most bytes that can matter: the length word, the longest table, and a list
/// that is one word too long.
pub const INPUT_BYTES_MAX: usize = 4 * (1 + TABLE_WORDS_MAX + LIST_WORDS_MAX + 1);

/// The longest text that is read: far more than any input needs.
pub const TEXT_BYTES_MAX: usize = 1_000_000;

/// A table and a list.
#[derive(Debug, Clone, PartialEq, Eq)]
pub struct Input {
    pub table: Vec<u32>,
    pub list: Vec<u32>,
}

impl Input {
    /// Takes bytes apart; the code 7 or 1, with what is wrong, where `linerun`
    /// would print it.
    pub fn parse(bytes: &[u8]) -> Result<Input, (u32, String)> {
        Input::of_words(bytes).map_err(|(code, mut why)| {
            if is_text(bytes) {
                why += "; is this a text? `balkwizu write FILE` makes the input of it";
            } else if is_table_alone(bytes) {
                why += "; are these a table's bytes alone? `balkwizu read --image FILE` \
                        makes a text of them, and `balkwizu repair --image` takes them";
            }
            (code, why)
        })
    }

    /// The table that a card's bytes are, with no list; code 3 and what is wrong where they
    /// are no words of a table.
    pub fn of_image(bytes: &[u8]) -> Result<Input, (u32, String)> {
        match (bytes.len() % 4, bytes.len() / 4) {
            (0, ..=TABLE_WORDS_MAX) => Ok(Input {
                table: from_bytes(bytes),
                list: Vec::new(),
            }),
            (0, _) => Err((
                3,
                "it has more than the 641 words of the largest table".into(),
            )),
            (left, _) => {
                let left = counted(left, "byte");
                Err((3, format!("{left} left over after the last whole word")))
            }
        }
    }

    fn of_words(bytes: &[u8]) -> Result<Input, (u32, String)> {
        let Some(first) = bytes.get(..4) else {
            let there = counted(bytes.len(), "byte");
            return Err((7, format!("it has {there}, less than one word")));
        };
        let length = from_bytes(first)[0] as usize;
        if length > TABLE_WORDS_MAX {
            return Err((7, format!("its first word {length} is above 641")));
        }
        let Some(list) = bytes.get(4 + 4 * length..) else {
            let (there, length) = (bytes.len() / 4 - 1, counted(length, "word"));
            let why = format!("its table should have {length}, it has {there}");
            return Err((7, why));
        };
        if list.len() / 4 > LIST_WORDS_MAX {
            return Err((1, "its list has 4,097 words or more".to_string()));
        }
        if list.len() % 4 != 0 {
            let left = counted(list.len() % 4, "byte");
            return Err((7, format!("{left} left over after the last whole word")));
        }
        let table = from_bytes(&bytes[4..4 + 4 * length]);
        let list = from_bytes(list);
        Ok(Input { table, list })
    }

    /// How much there is of an accepted table and a list.
    pub fn size(&self) -> String {
        format!(
            "{}, {}, {} in {}",
            counted(domains(&self.table), "domain"),
            counted(endpoints(&self.table), "endpoint"),
            counted(cut(&self.list).len(), "call"),
            counted(self.list.len(), "word")
        )
    }

    /// The bytes that `linerun` reads.
    pub fn to_bytes(&self) -> Vec<u8> {
        let mut words = vec![self.table.len() as u32];
        words.extend(&self.table);
        words.extend(&self.list);
        to_bytes(&words)
    }
}

impl Input {
    /// Document 01's table T and list L.
    pub fn example() -> Input {
        use reference::example::{LIST_L, TABLE_T};
        Input {
            table: TABLE_T.to_vec(),
            list: LIST_L.to_vec(),
        }
    }
}

/// Whether bytes start as a table does, with no length before it.
fn is_table_alone(bytes: &[u8]) -> bool {
    let first = bytes.get(..4).map(|word| from_bytes(word)[0]);
    first.is_some_and(|word| word >> 28 == 1)
}

/// Whether bytes could be typed text: an input of linerun has zero bytes instead.
pub fn is_text(bytes: &[u8]) -> bool {
    let typed = |byte: &u8| !byte.is_ascii_control() || byte.is_ascii_whitespace();
    !bytes.is_empty() && bytes.iter().all(typed)
}

/// The bytes of a file that can matter to `linerun`.
pub fn read_input(path: impl AsRef<Path>) -> Result<Vec<u8>, String> {
    read_at_most(path, INPUT_BYTES_MAX)
}

/// The text that bytes are, where they could be typed: nothing of it may be left out, and
/// its letters must be known.
pub fn typed(bytes: &[u8]) -> Result<Option<&str>, String> {
    if is_utf_16(bytes) {
        return Err("it is saved as UTF-16: save it as UTF-8".to_string());
    }
    if !is_text(bytes) {
        return Ok(None);
    }
    is_no_longer(bytes)?;
    std::str::from_utf8(bytes).map(Some).map_err(|wrong| {
        let before = bytes[..wrong.valid_up_to()].iter();
        let line = 1 + before.filter(|&&byte| byte == b'\n').count();
        format!("line {line} has a letter that is not UTF-8: save the text as UTF-8")
    })
}

/// Whether bytes start as a text does in UTF-16: with a byte-order mark, or with two letters
/// that have a zero byte each. No input of linerun, table or answer starts so.
fn is_utf_16(bytes: &[u8]) -> bool {
    let letter = |byte: u8| byte.is_ascii_graphic() || b" \t\r\n".contains(&byte);
    match *bytes {
        [0xFF, 0xFE, ..] | [0xFE, 0xFF, ..] => true,
        [a, 0, b, 0, ..] | [0, a, 0, b, ..] => letter(a) && letter(b),
        _ => false,
    }
}

/// That bytes are no more than the longest text has.
fn is_no_longer(bytes: &[u8]) -> Result<(), String> {
    match bytes.len() {
        0..=TEXT_BYTES_MAX => Ok(()),
        _ => Err("it is above 1,000,000 bytes".to_string()),
    }
}

/// What `take` makes of a file's bytes, as many as a text may have and one more, by which a
/// longer one is known; what is wrong is reported with the file's name.
pub fn read_typed<T>(
    path: &Path,
    take: impl FnOnce(Vec<u8>) -> Result<T, String>,
) -> Result<T, String> {
    let bytes = read_at_most(path, TEXT_BYTES_MAX + 1)?;
    take(bytes).map_err(|why| format!("{}: {why}", shown(path)))
}

/// The text of a file; `otherwise` is said where it is none.
pub fn read_text(path: impl AsRef<Path>, otherwise: &str) -> Result<String, String> {
    read_typed(path.as_ref(), |bytes| {
        is_no_longer(&bytes)?;
        typed(&bytes)?;
        let text = String::from_utf8(bytes).ok();
        text.filter(|text| !text.contains('\0'))
            .ok_or_else(|| format!("it is no text; {otherwise}"))
    })
}

/// The first bytes of a file, or of standard input where the path is `-`. What
/// never ends is read no further than that.
pub fn read_at_most(path: impl AsRef<Path>, most: usize) -> Result<Vec<u8>, String> {
    let path = path.as_ref();
    let mut bytes = Vec::new();
    let most = most as u64;
    let read = match path.to_str() {
        Some("-") => io::stdin().lock().take(most).read_to_end(&mut bytes),
        _ => File::open(path).and_then(|file| file.take(most).read_to_end(&mut bytes)),
    };
    match read {
        Ok(_) => Ok(bytes),
        Err(wrong) => Err(format!("cannot read {}: {wrong}", shown(path))),
    }
}

/// That no two of the files that are to be read are standard input, which the first takes
/// whole.
pub fn read_once(paths: &[&Path]) -> Result<(), String> {
    match paths.iter().filter(|path| **path == Path::new("-")).count() {
        0 | 1 => Ok(()),
        _ => Err("standard input can be read once only".to_string()),
    }
}

/// What a path is called in messages.
pub fn shown(path: impl AsRef<Path>) -> String {
    match path.as_ref().to_str() {
        Some("-") => "standard input".to_string(),
        _ => output::shown(path),
    }
}

#[cfg(test)]
mod tests {
    use super::*;

    #[test]
    fn bytes_and_back() {
        let bytes = Input::example().to_bytes();
        assert_eq!(bytes[..4], [34, 0, 0, 0]);
        assert_eq!(bytes.len(), 4 * (1 + 34 + 12));
        assert_eq!(Input::parse(&bytes), Ok(Input::example()));
    }

    #[test]
    fn what_linerun_refuses_is_refused_with_its_number() {
        let bytes = Input::example().to_bytes();
        let code = |bytes: &[u8]| Input::parse(bytes).unwrap_err().0;
        assert_eq!(code(&[]), 7);
        assert_eq!(code(&bytes[..3]), 7);
        assert_eq!(code(&bytes[..4 + 4 * 33]), 7);
        assert_eq!(code(&bytes[..bytes.len() - 1]), 7);
        assert_eq!(code(&to_bytes(&[642])), 7);
        let long = to_bytes(&vec![0; 1 + 4097]);
        assert_eq!(code(&long), 1);
        assert_eq!(code(&[&long[..], &[9]].concat()), 1);
        assert!(Input::parse(&long[..4 + 4 * 4096]).is_ok());
    }

    #[test]
    fn what_is_wrong_is_said_in_the_right_number() {
        let why = |bytes: &[u8]| Input::parse(bytes).unwrap_err().1;
        assert_eq!(why(&[7]), "it has 1 byte, less than one word");
        let left = why(&[Input::example().to_bytes(), vec![0]].concat());
        assert_eq!(left, "1 byte left over after the last whole word");
        let short = why(&to_bytes(&[34, 1]));
        assert_eq!(short, "its table should have 34 words, it has 1");
        let small = Input {
            table: vec![0x1000_0100, 0x2000_0000],
            list: vec![0x2000_0000, 0xF000_0000],
        };
        assert_eq!(small.size(), "1 domain, 0 endpoints, 1 call in 2 words");
    }

    #[test]
    fn a_text_is_told_from_an_input() {
        let why = |bytes: &[u8]| Input::parse(bytes).unwrap_err().1;
        let typed = why(b"table\n10000302 # \xC3\xA9\r\n");
        assert!(typed.ends_with("is this a text? `balkwizu write FILE` makes the input of it"));
        assert!(why(b"ab").contains("is this a text?"));
        assert!(!why(b"").contains("text"));
        assert!(!why(b"table\0").contains("text"));
    }

    #[test]
    fn a_text_in_utf_16_is_known_as_one() {
        let utf_16 = Err("it is saved as UTF-16: save it as UTF-8".to_string());
        let words = |mark: &str| format!("{mark}table\r\n10000302").encode_utf16().collect();
        for mark in ["", "\u{FEFF}"] {
            let words: Vec<u16> = words(mark);
            let little: Vec<u8> = words.iter().flat_map(|word| word.to_le_bytes()).collect();
            let big: Vec<u8> = words.iter().flat_map(|word| word.to_be_bytes()).collect();
            assert_eq!(typed(&little), utf_16);
            assert_eq!(typed(&big), utf_16);
        }
        let mut rng = reference::generate::Rng::new(7);
        for _ in 0..2000 {
            let input = reference::generate::linerun_input(&mut rng, 3, 3, 40);
            assert!(Input::parse(&input).is_err() || !is_utf_16(&input));
        }
    }

    #[test]
    fn a_text_is_taken_whole_or_reported_by_the_line_that_cannot_be_read() {
        assert_eq!(typed(b"table # \xC3\xA9\n"), Ok(Some("table # \u{E9}\n")));
        assert_eq!(typed(&[34, 0, 0, 0]), Ok(None));
        let latin = typed(b"table\n# F\xF6rderer\n").unwrap_err();
        assert!(latin.starts_with("line 2 has a letter that is not UTF-8"));
        let mut long = vec![b' '; TEXT_BYTES_MAX];
        assert!(typed(&long).is_ok());
        long.push(b' ');
        assert_eq!(typed(&long), Err("it is above 1,000,000 bytes".into()));
    }

    #[test]
    fn what_never_ends_is_read_as_far_as_it_can_matter() {
        assert_eq!(INPUT_BYTES_MAX, 18_956);
        let read = read_input("/dev/zero").unwrap();
        assert_eq!(read.len(), INPUT_BYTES_MAX);
        assert_eq!(Input::parse(&read).unwrap_err().0, 1);
        assert_eq!(reference::linerun(&read), b"calls 0 code 1\n");
    }

    #[test]
    fn refusals_agree_with_the_reference() {
        let mut rng = reference::generate::Rng::new(5);
        for _ in 0..2000 {
            let input = reference::generate::linerun_input(&mut rng, 3, 3, 40);
            let printed = String::from_utf8(reference::linerun(&input)).unwrap();
            match Input::parse(&input) {
                Err((code, _)) => assert_eq!(printed, format!("calls 0 code {code}\n")),
                Ok(_) => assert!(!printed.starts_with("calls 0 code 7")),
            }
        }
    }
}
