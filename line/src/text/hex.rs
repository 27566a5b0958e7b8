//! Words as text, the way document 01 writes them, and back. A text that describes the line
//! is read by [`described`].
//!
//! The help of `balkwizu write` says what a text looks like.

use crate::text::calls;
use crate::text::described;
use crate::text::given::Given;
use crate::text::input::Input;
use crate::text::mistakes::{reported, Mistake};
use crate::text::names::{Names, Namings};
use crate::text::sentences::{items_between, Item};

/// How often a word may be repeated: once for each word of a list that is too long.
const REPEATS_MAX: usize = 4097;

/// The most words of one part, so that a few repetitions too many can't take all
/// memory.
const PART_WORDS_MAX: usize = 100_000;

/// How many words a line has where no layout says it.
const WORDS_IN_A_LINE: usize = 8;

/// What one text gives, in parts as they were labelled.
#[derive(Default)]
struct Parts<'a> {
    unlabelled: Vec<u32>,
    /// Single bytes after the unlabelled words.
    left_over: Vec<u8>,
    table: Option<Vec<u32>>,
    list: Option<Vec<u32>>,
    /// The line of each word of the list.
    lines: Vec<usize>,
    /// Whether there may be a list without a table.
    list_alone: bool,
    namings: Namings<'a>,
    mistakes: Vec<Mistake>,
}

/// The text of an input: a line for word 0, for each holder's rights, for each
/// endpoint, and for each call.
pub fn write(input: &Input) -> String {
    let mut text = String::from("table\n");
    for row in table_rows(&input.table) {
        text.push_str(&line(row));
    }
    text + &write_list(&input.list)
}

/// The text of a list: a line for each call.
pub fn write_list(list: &[u32]) -> String {
    let calls = reference::cut(list);
    let lines: String = calls.iter().map(|call| line(&call.words())).collect();
    format!("list\n{lines}")
}

/// The text of any bytes, in few lines.
pub fn write_bytes(bytes: &[u8]) -> String {
    let mut items = items(&reference::words::from_bytes(bytes));
    let left_over = bytes.chunks_exact(4).remainder();
    items.extend(left_over.iter().map(|byte| format!("{byte:02X}")));
    let lines = items.chunks(WORDS_IN_A_LINE);
    lines.map(|items| items.join(" ") + "\n").collect()
}

/// The rows that a table is written in: by its layout where its length is right,
/// otherwise the same number of words in each.
fn table_rows(table: &[u32]) -> Vec<&[u32]> {
    let Some(&header) = table.first() else {
        return Vec::new();
    };
    if !reference::table::header_is_right(header) || reference::table::length(header) != table.len()
    {
        return table.chunks(WORDS_IN_A_LINE).collect();
    }
    let n = reference::table::domains(table);
    let (rights, endpoints) = table[1..].split_at(n * n);
    let mut rows = vec![&table[..1]];
    rows.extend(rights.chunks(n));
    rows.extend(endpoints.chunks(reference::table::ENDPOINT_WORDS));
    rows
}

fn line(words: &[u32]) -> String {
    items(words).join(" ") + "\n"
}

/// Words one by one; one that comes three times or more in a row is written once, with how
/// often.
fn items(words: &[u32]) -> Vec<String> {
    let mut written = Vec::new();
    let mut rest = words;
    while let Some(&word) = rest.first() {
        let most = rest.iter().take(REPEATS_MAX);
        let same = most.take_while(|&&next| next == word).count();
        if same >= 3 {
            written.push(format!("{word:08X}*{same}"));
        } else {
            written.extend(vec![format!("{word:08X}"); same]);
        }
        rest = &rest[same..];
    }
    written
}

/// What a text gives, with its names; or everything that is wrong with it.
pub fn read(text: &str) -> Result<Given, String> {
    if described::is_described(text) {
        return described::read(text);
    }
    parts_of(text, false).given()
}

/// The same of a text that may have a list alone, whose table is then empty: as words, or as
/// calls with the names and the sizes of the line that it is for.
pub fn read_list(
    text: &str,
    names: &Names,
    sizes: Option<(usize, usize)>,
) -> Result<Given, String> {
    if described::has_calls_alone(text) {
        return described::read_calls(text, names, sizes);
    }
    if described::is_described(text) {
        return described::read(text);
    }
    parts_of(text, true).given()
}

fn parts_of(text: &str, list_alone: bool) -> Parts<'_> {
    let mut parts = Parts {
        list_alone,
        ..Parts::default()
    };
    for (number, line) in lines_of(text) {
        let items = items_of(line);
        if parts.namings.take(number, &items) {
            continue;
        }
        for item in items {
            if let Err(why) = parts.take(item.text) {
                parts.mistakes.push((number, item.column, why));
            }
        }
        let words = parts.list.as_ref().map_or(0, Vec::len);
        parts.lines.resize(words, number);
    }
    parts
}

/// The lines of any text that is typed in, counted from 1, each up to its comment.
pub fn lines_of(text: &str) -> impl Iterator<Item = (usize, &str)> {
    // Some editors put a byte-order mark before a text.
    let text = text.strip_prefix('\u{FEFF}').unwrap_or(text);
    let said = |line: &'_ str| line.find('#').unwrap_or(line.len());
    (1..).zip(text.lines().map(move |line| &line[..said(line)]))
}

/// What a line has between spaces, `;` and `,`.
pub fn items_of(line: &str) -> Vec<Item<'_>> {
    items_between(line, |c| c.is_whitespace() || c == ';' || c == ',')
}

impl Parts<'_> {
    fn given(mut self) -> Result<Given, String> {
        let names = self.names();
        self.mistakes
            .extend(names.as_ref().err().cloned().unwrap_or_default());
        match names {
            Ok(names) if self.mistakes.is_empty() => {
                match self.table.is_none() && self.is_empty() {
                    true => Err("there is no word in it".to_string()),
                    false => Ok(Given {
                        bytes: self.bytes(),
                        names,
                        warnings: Vec::new(),
                        lines: self.lines,
                    }),
                }
            }
            _ => Err(reported(self.mistakes)),
        }
    }

    /// The bytes for `linerun`.
    fn bytes(&self) -> Vec<u8> {
        let Some(table) = &self.table else {
            let words = reference::words::to_bytes(&self.unlabelled);
            return [words, self.left_over.clone()].concat();
        };
        let (table, list) = (table.clone(), self.list.clone().unwrap_or_default());
        Input { table, list }.to_bytes()
    }

    fn names(&self) -> Result<Names, Vec<Mistake>> {
        let input = Input::parse(&self.bytes());
        let table = input.map(|input| input.table).unwrap_or_default();
        self.namings.added_to(Names::none(), &table)
    }

    fn take(&mut self, item: &str) -> Result<(), String> {
        match item {
            "table" | "table:" => self.start_table(),
            "list" | "list:" => self.start_list(),
            _ => self.add(item),
        }
    }

    /// Whether there is nothing outside `table` and `list`.
    fn is_empty(&self) -> bool {
        self.unlabelled.is_empty() && self.left_over.is_empty()
    }

    fn start_table(&mut self) -> Result<(), String> {
        if self.list.is_some() && self.list_alone {
            return Err("`table` is written after `list`".to_string());
        }
        if self.table.is_some() {
            return Err("`table` is written a second time".to_string());
        }
        if !self.is_empty() {
            return Err("there are words before `table`".to_string());
        }
        self.table = Some(Vec::new());
        Ok(())
    }

    fn start_list(&mut self) -> Result<(), String> {
        if self.list.is_some() {
            return Err("`list` is written a second time".to_string());
        }
        if self.table.is_none() && !self.list_alone {
            return Err("`list` is written without `table` before it".to_string());
        }
        if !self.is_empty() {
            return Err("there are words before `list`".to_string());
        }
        self.table.get_or_insert_default();
        self.list = Some(Vec::new());
        Ok(())
    }

    /// Adds a word, the same one several times, or a byte, to the part that is read
    /// now.
    fn add(&mut self, item: &str) -> Result<(), String> {
        if let Some(byte) = byte_of(item).filter(|_| self.table.is_none()) {
            self.left_over.push(byte);
            return match self.left_over.len() {
                4.. => Err("four bytes at the end make a word".to_string()),
                _ => Ok(()),
            };
        }
        let words = words_of(item)?;
        if !self.left_over.is_empty() {
            return Err(format!("the word `{item}` comes after single bytes"));
        }
        let labelled = self.list.as_mut().or(self.table.as_mut());
        let part = labelled.unwrap_or(&mut self.unlabelled);
        if part.len() + words.len() > PART_WORDS_MAX {
            return Err("more than 100,000 words: linerun reads 4,739 at most".to_string());
        }
        part.extend(words);
        Ok(())
    }
}

/// A byte of two hexadecimal digits.
fn byte_of(item: &str) -> Option<u8> {
    hexadecimal(item, 2).map(|byte| byte as u8)
}

/// One word, or the same one several times.
pub fn words_of(item: &str) -> Result<Vec<u32>, String> {
    let (digits, times) = item.split_once('*').unwrap_or((item, "1"));
    let prefixed = digits.strip_prefix("0x").or(digits.strip_prefix("0X"));
    let Some(word) = hexadecimal(prefixed.unwrap_or(digits), 8) else {
        let meant = meant(item);
        return Err(format!(
            "`{item}` is no word: eight hexadecimal digits, as F0000005 or F0000000*8{meant}"
        ));
    };
    let digits_only = times.bytes().all(|digit| digit.is_ascii_digit());
    match times.parse() {
        Ok(times @ 1..=REPEATS_MAX) if digits_only => Ok(vec![word; times]),
        _ => Err(format!("`{item}`: a word can come 1 to 4,097 times")),
    }
}

/// What else a text may be that has this in the place of a word.
fn meant(item: &str) -> &'static str {
    match item {
        _ if calls::is_kind(item) => "; calls alone are for `balkwizu write --table`",
        "hand" | "turn" | "turns" => "; a text of turns is for `balkwizu turns`",
        "calls" => "; a line that linerun prints is no word either",
        _ if item.contains('.') => "; only `balkwizu turns` takes a file's name here",
        _ => "",
    }
}

/// The number that just so many hexadecimal digits are.
fn hexadecimal(digits: &str, count: usize) -> Option<u32> {
    let right = digits.len() == count && digits.bytes().all(|digit| digit.is_ascii_hexdigit());
    u32::from_str_radix(digits, 16).ok().filter(|_| right)
}

#[cfg(test)]
mod tests {
    use super::*;

    fn bytes_of(text: &str) -> Result<Vec<u8>, String> {
        read(text).map(|given| given.bytes)
    }

    fn list_bytes(text: &str) -> Result<Vec<u8>, String> {
        read_list(text, &Names::none(), None).map(|given| given.bytes)
    }
    use reference::generate::{linerun_input, Rng};

    /// The worked example as document 01 writes it.
    const TYPED: &str = "
        table  # T: n 3, m 2
        10000302; 20000000 20000001 20000000; 20000001 20000000 20000007;
        20000000 20000000 20000000; 30000011 40000102 50000000 60000000 F0000000*8;
        30000012 40000201 50000000 60000000 F0000000*8
        list   # L
        20000100 F0000005 60420001 20000100 F0000005 20000100 F0000006
        30800100 30800100 F0000009 50000000 40800000";

    #[test]
    fn the_worked_example_typed_in() {
        assert_eq!(bytes_of(TYPED), Ok(Input::example().to_bytes()));
        let printed = reference::linerun(&bytes_of(TYPED).unwrap());
        assert_eq!(printed, reference::example::PRINTED.as_bytes());
    }

    #[test]
    fn text_and_back() {
        let text = write(&Input::example());
        assert!(text.starts_with("table\n10000302\n20000000 20000001 20000000\n"));
        assert!(text.contains("30000012 40000201 50000000 60000000 F0000000*8\n"));
        assert!(text.contains("list\n20000100 F0000005\n60420001\n"));
        assert_eq!(bytes_of(&text), Ok(Input::example().to_bytes()));
    }

    #[test]
    fn every_input_comes_back() {
        let mut rng = Rng::new(11);
        for _ in 0..500 {
            let bytes = linerun_input(&mut rng, 5, 4, 60);
            if let Ok(input) = Input::parse(&bytes) {
                assert_eq!(bytes_of(&write(&input)), Ok(input.to_bytes()));
            }
        }
    }

    #[test]
    fn words_without_labels_are_taken_as_they_are() {
        assert_eq!(
            bytes_of("00000001 10000100"),
            Ok(vec![1, 0, 0, 0, 0, 1, 0, 16])
        );
        assert_eq!(bytes_of("00000001 F0 a1"), Ok(vec![1, 0, 0, 0, 0xF0, 0xA1]));
        assert_eq!(bytes_of("table\nlist"), Ok(vec![0, 0, 0, 0]));
        assert_eq!(bytes_of("table"), bytes_of("table list"));
    }

    #[test]
    fn a_prefix_and_a_byte_order_mark_are_taken() {
        let plain = bytes_of("table 10000100 F0000000*2");
        assert_eq!(bytes_of("\u{FEFF}table 0x10000100 0XF0000000*2"), plain);
    }

    #[test]
    fn any_bytes_come_back_from_few_lines() {
        let mut rng = Rng::new(12);
        for _ in 0..500 {
            let bytes = linerun_input(&mut rng, 5, 4, 60);
            if !bytes.is_empty() {
                assert_eq!(bytes_of(&write_bytes(&bytes)), Ok(bytes));
            }
        }
        let long = [9, 0, 0, 0x50].repeat(REPEATS_MAX + 2);
        assert_eq!(write_bytes(&long), "50000009*4097 50000009 50000009\n");
        assert_eq!(bytes_of(&write_bytes(&long)), Ok(long));
    }

    #[test]
    fn what_is_wrong_is_said_with_its_line() {
        let wrong = |text: &str| bytes_of(text).unwrap_err();
        assert!(wrong("table\n2000010").starts_with("line 2, column 1: `2000010` is no word"));
        assert!(wrong("+2345678").starts_with("line 1, column 1:"));
        let two = wrong("table 10000100 2000\n 20000000\n  F000 list\nlist");
        let places: Vec<&str> = two.lines().map(|line| &line[..17]).collect();
        let wanted = [
            "line 1, column 16",
            "line 3, column 3:",
            "line 4, column 1:",
        ];
        assert_eq!(places, wanted);
        for times in ["x", "", "0", "4098", "99999999999999999999"] {
            let said = wrong(&format!("F0000000*{times}"));
            assert!(said.ends_with("can come 1 to 4,097 times"), "{said}");
        }
        for nothing in ["", "# nothing\n\n"] {
            assert_eq!(wrong(nothing), "there is no word in it");
        }
    }

    #[test]
    fn labels_out_of_place_are_told_apart() {
        let wrong = |text: &str| bytes_of(text).unwrap_err();
        let twice = wrong("table table");
        assert_eq!(twice, "line 1, column 7: `table` is written a second time");
        let twice = wrong("table list\nlist");
        assert_eq!(twice, "line 2, column 1: `list` is written a second time");
        let alone = wrong("list 20000100");
        assert_eq!(
            alone.lines().next(),
            Some("line 1, column 1: `list` is written without `table` before it")
        );
        let before = wrong("20000100\ntable\n10000100");
        assert_eq!(before, "line 2, column 1: there are words before `table`");
    }

    #[test]
    fn a_list_is_alone_where_it_may_be() {
        let empty_table = bytes_of("table list 20000100 F0000005");
        assert_eq!(list_bytes("list 20000100 F0000005"), empty_table);
        assert_eq!(list_bytes(TYPED), bytes_of(TYPED));
        assert_eq!(
            list_bytes("00000001 10000100"),
            bytes_of("00000001 10000100")
        );
        let wrong = |text: &str| list_bytes(text).unwrap_err();
        let before = "line 2, column 1: there are words before `list`";
        assert_eq!(wrong("20000100\nlist"), before);
        let after = "line 2, column 1: `table` is written after `list`";
        assert_eq!(wrong("list\ntable"), after);
    }

    #[test]
    fn single_bytes_are_at_the_end_of_unlabelled_words() {
        let wrong = |text: &str| bytes_of(text).unwrap_err();
        assert!(wrong("table 10000100 F0").contains("`F0` is no word"));
        assert!(wrong("00000001 F0 F0 F0 F0").contains("make a word"));
        assert!(wrong("00000001 F0\n10000100").starts_with("line 2, column 1: the word"));
    }

    #[test]
    fn repetitions_take_no_more_memory_than_there_should_be() {
        let said = bytes_of(&"F0000000*4097 ".repeat(25)).unwrap_err();
        assert!(said.contains("more than 100,000 words"), "{said}");
    }

    const NAMED: &str = "
        domain 2 drives   # before
        table 10000302; 20000000*9
        endpoint 1 drives
        30000011 40000102 50000000 60000000 F0000000*8;
        30000012 40000201 50000000 60000000 F0000000*8
        list
        domain 0 link";

    #[test]
    fn names_are_before_between_and_after_the_parts() {
        let given = read(NAMED).unwrap();
        let names = Names::given("domain 0 link\ndomain 2 drives\nendpoint 1 drives");
        assert_eq!(given.names, names);
        let unnamed: Vec<&str> = NAMED
            .lines()
            .filter(|line| !names_something(line))
            .collect();
        assert_eq!(read(&unnamed.join("\n")).unwrap().bytes, given.bytes);
    }

    fn names_something(line: &str) -> bool {
        lines_of(line).any(|(number, line)| Namings::default().take(number, &items_of(line)))
    }

    #[test]
    fn wrong_names_are_reported_by_their_line() {
        let wrong = |text: &str| read(text).unwrap_err();
        let table = "table 10000200 20000000*4\n";
        let beyond = wrong(&format!("{table}domain 2 link"));
        let wanted = "line 2, column 8: there is no domain 2: the table has 0 to 1";
        assert_eq!(beyond, wanted);
        let before = wrong(&format!("domain 2 link\n{table}"));
        assert!(before.starts_with("line 1, column 8: there is no domain 2"));
        let twice = wrong(&format!("{table}\ndomain 0 link\ndomain 1 link"));
        assert!(twice.starts_with("line 4, column 10: `link` is the name of domain 0 already"));
        assert!(wrong("table 10000200 domain 0 link").contains("`domain` is no word"));
        assert_eq!(wrong("domain 0 link"), "there is no word in it");
    }

    #[test]
    fn the_line_of_each_word_of_a_list_is_known() {
        let given = read("table 10000100\n20000000\nlist 50000000\n\n20000000\nF0000005*2");
        assert_eq!(given.unwrap().lines, [3, 5, 6, 6]);
        let listed = read_list("list 50000000\ndomain 0 link", &Names::none(), None).unwrap();
        assert_eq!(listed.names.domain(0), "domain 0 (link)");
    }
}
