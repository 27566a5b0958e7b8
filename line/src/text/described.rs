//! A line described in words: its domains, endpoints, rights and calls by their names, and
//! back.
//!
//! The help of `balkwizu write` says what such a text looks like.

mod heads;

use reference::calls::LIST_WORDS_MAX;
use reference::table::{capacity, domains, endpoints, lost, name, owner, rights, waiting};
use reference::table::{endpoint_words, SLOTS_PLACE};
use reference::words::content;
use reference::writer::to_columns;

use crate::text::calls;
use crate::text::explain::rights_in_words;
use crate::text::given::Given;
use crate::text::hex::{lines_of, words_of};
use crate::text::input::Input;
use crate::text::mistakes::{reported, Mistake};
use crate::text::names::Names;
use crate::text::sentences::{self, items_of, Item, Wrong};
use heads::Heads;

/// The lines of a text that have something in them, taken apart.
fn lines(text: &str) -> Vec<(usize, Vec<Item<'_>>)> {
    let all = lines_of(text).map(|(number, line)| (number, items_of(line)));
    all.filter(|(_, items)| !items.is_empty()).collect()
}

fn is_calls((_, items): &(usize, Vec<Item>)) -> bool {
    items.len() == 1 && items[0].text == "calls"
}

/// Whether a line starts as one does that gives the words of a table or a list.
fn gives_words(items: &[Item]) -> bool {
    ["table", "table:", "list", "list:"].contains(&items[0].text)
}

/// Whether a line starts as one does that describes a line or gives its words.
fn is_head(items: &[Item]) -> bool {
    gives_words(items) || ["domain", "endpoint", "rights"].contains(&items[0].text)
}

/// Whether a line is a call, as a sentence or by its fields.
fn is_call(items: &[Item]) -> bool {
    let verb = items.get(1);
    calls::is_kind(items[0].text) || verb.is_some_and(|item| sentences::is_verb(item.text))
}

/// Whether a text describes a line in words, rather than giving its words.
pub fn is_described(text: &str) -> bool {
    let lines = lines(text);
    if lines.iter().any(|(_, items)| gives_words(items)) {
        return false;
    }
    lines.iter().any(|(_, items)| {
        let items: Vec<&str> = items.iter().map(|item| item.text).collect();
        match items.as_slice() {
            ["calls"] | ["rights", ..] | ["domain", _] => true,
            ["endpoint", _, field, ..] => heads::is_endpoint_field(field),
            _ => false,
        }
    })
}

/// Whether a text has calls alone, without the line that they are for.
pub fn has_calls_alone(text: &str) -> bool {
    let lines = lines(text);
    let some = lines.iter().any(|line| is_calls(line) || is_call(&line.1));
    some && !lines.iter().any(|(_, items)| is_head(items))
}

/// The line that a text describes, or everything that is wrong with it.
pub fn read(text: &str) -> Result<Given, String> {
    let lines = lines(text);
    let end = lines.iter().position(is_calls).unwrap_or(lines.len());
    let mut heads = Heads::default();
    let mut mistakes = Vec::new();
    for (number, items) in &lines[..end] {
        let read = heads.read(*number, items);
        mistakes.extend(read.err().map(|(column, why)| (*number, column, why)));
    }
    mistakes.extend(heads.resolve());
    let mut list = List::new(heads.names(), Some(heads.sizes()));
    list.mistakes = mistakes;
    for (number, items) in lines.iter().skip(end + 1) {
        list.take(*number, items);
    }
    list.given(heads.table())
}

/// The list of a text that has calls alone, with the names and the sizes of the line that it
/// is for, where they are known; or everything that is wrong with it.
pub fn read_calls(
    text: &str,
    names: &Names,
    sizes: Option<(usize, usize)>,
) -> Result<Given, String> {
    let mut list = List::new(names, sizes);
    let lines = lines(text);
    let heading = usize::from(lines.first().is_some_and(is_calls));
    for (number, items) in &lines[heading..] {
        list.take(*number, items);
    }
    list.given(Vec::new())
}

/// The calls of a text, and what is wrong with it.
struct List<'a> {
    names: &'a Names,
    sizes: Option<(usize, usize)>,
    words: Vec<u32>,
    /// The line of each word.
    lines: Vec<usize>,
    mistakes: Vec<Mistake>,
    warnings: Vec<String>,
}

impl<'a> List<'a> {
    fn new(names: &'a Names, sizes: Option<(usize, usize)>) -> List<'a> {
        List {
            names,
            sizes,
            words: Vec::new(),
            lines: Vec::new(),
            mistakes: Vec::new(),
            warnings: Vec::new(),
        }
    }

    /// Takes in the call of a line.
    fn take(&mut self, line: usize, items: &[Item]) {
        let full = self.words.len() > LIST_WORDS_MAX;
        match self.call(line, items) {
            Err((column, why)) => self.mistakes.push((line, column, why)),
            Ok(words) => {
                self.words.extend(words);
                self.lines.resize(self.words.len(), line);
                if self.words.len() > LIST_WORDS_MAX && !full {
                    let why = "the list has more than 4,096 words here".to_string();
                    self.mistakes.push((line, items[0].column, why));
                }
            }
        }
    }

    /// The words of a call, with a warning of each number that the table hasn't. A line may
    /// also give words.
    fn call(&mut self, line: usize, items: &[Item]) -> Result<Vec<u32>, Wrong> {
        if items[0].text == "words" && !is_call(items) {
            return words_given(&items[1..]);
        }
        let call = calls::read(items, self.names)?;
        let words = call.words()?;
        let beyond = self.sizes.map(|sizes| calls::beyond(&call.columns, sizes));
        let beyond = beyond.unwrap_or_default();
        let warned = beyond
            .iter()
            .map(|what| format!("line {line}: the table has no {what}"));
        self.warnings.extend(warned);
        Ok(words)
    }

    fn given(self, table: Vec<u32>) -> Result<Given, String> {
        if !self.mistakes.is_empty() {
            return Err(reported(self.mistakes));
        }
        let list = self.words;
        Ok(Given {
            bytes: Input { table, list }.to_bytes(),
            names: self.names.clone(),
            warnings: self.warnings,
            lines: self.lines,
        })
    }
}

/// The words that a line gives.
pub fn words_given(items: &[Item]) -> Result<Vec<u32>, Wrong> {
    let mut words = Vec::new();
    for item in items {
        words.extend(words_of(item.text).map_err(|why| (item.column, why))?);
    }
    Ok(words)
}

/// The text of an accepted table and a list. What has no name is called by its number after a
/// letter.
pub fn write(input: &Input, names: &Names) -> String {
    let table = &input.table;
    let names = names.completed(domains(table), endpoints(table));
    let mut text = String::new();
    for domain in 0..domains(table) {
        text += &format!("domain {}\n", named(names.domain_name(domain)));
    }
    for endpoint in 0..endpoints(table) {
        text += &endpoint_line(table, endpoint, &names);
    }
    for holder in 0..domains(table) {
        text += &rights_lines(table, holder, &names);
    }
    text + &call_lines(&input.list, &names)
}

fn named(name: Option<&str>) -> &str {
    name.expect("each has a name")
}

fn endpoint_line(table: &[u32], endpoint: usize, names: &Names) -> String {
    let mut line = format!(
        "endpoint {} owner {} capacity {}",
        named(names.endpoint_name(endpoint)),
        named(names.domain_name(owner(table, endpoint))),
        capacity(table, endpoint)
    );
    if name(table, endpoint) as usize != endpoint + 1 {
        line += &format!(" name {}", name(table, endpoint));
    }
    if lost(table, endpoint) != 0 {
        line += &format!(" lost {}", lost(table, endpoint));
    }
    let slots = &endpoint_words(table, endpoint)[SLOTS_PLACE..];
    let messages = slots.iter().take(waiting(table, endpoint));
    let messages: String = messages
        .map(|&slot| format!(" {}", content(slot)))
        .collect();
    if !messages.is_empty() {
        line += &format!(" waiting{messages}");
    }
    line + "\n"
}

fn rights_lines(table: &[u32], holder: usize, names: &Names) -> String {
    let targets = (0..domains(table)).filter(|&target| rights(table, holder, target) != 0);
    let lines = targets.map(|target| {
        format!(
            "rights {} on {}: {}\n",
            named(names.domain_name(holder)),
            named(names.domain_name(target)),
            rights_in_words(rights(table, holder, target))
        )
    });
    lines.collect()
}

/// The calls, a sentence each; what no sentence says, as its words.
fn call_lines(list: &[u32], names: &Names) -> String {
    let calls = reference::cut(list);
    let values = reference::read(list);
    let lines = calls.iter().zip(&values).map(|(call, value)| {
        let said = to_columns(value).map(|columns| sentences::write(&columns, names));
        let words = || {
            call.words()
                .iter()
                .map(|word| format!(" {word:08X}"))
                .collect::<String>()
        };
        format!(
            "  {}\n",
            said.unwrap_or_else(|| format!("words{}", words()))
        )
    });
    let lines: String = lines.collect();
    match lines.is_empty() {
        true => String::new(),
        false => format!("calls\n{lines}"),
    }
}

#[cfg(test)]
mod tests {
    use super::*;
    use reference::generate::{self, Rng};

    const LINE: &str = "\
# a small line
domain link
domain loader
domain drive-a
endpoint routes  owner loader  capacity 4
endpoint moves-a owner drive-a capacity 8  name 18 lost 3 waiting 5 6
rights loader on drive-a: SEND+GRANT
rights link on loader: SEND
calls
  link sends 65 to routes
  grant caller loader target drive-a recipient link rights SEND
  words F0000009
";

    fn input(text: &str) -> Input {
        Input::parse(&read(text).unwrap().bytes).unwrap()
    }

    fn mistakes(text: &str) -> Vec<String> {
        read(text)
            .unwrap_err()
            .lines()
            .map(str::to_string)
            .collect()
    }

    #[test]
    fn a_line_in_words_is_its_table_and_list() {
        assert!(is_described(LINE));
        let given = input(LINE);
        let table = [
            0x1000_0302,
            0x2000_0000,
            0x2000_0001,
            0x2000_0000,
            0x2000_0000,
            0x2000_0000,
            0x2000_0003,
            0x2000_0000,
            0x2000_0000,
            0x2000_0000,
        ];
        assert_eq!(given.table[..10], table);
        assert_eq!(
            given.table[10..14],
            [0x3000_0001, 0x4000_0104, 0x5000_0000, 0x6000_0000]
        );
        assert_eq!(
            given.table[22..26],
            [0x3000_0012, 0x4000_0208, 0x5000_0002, 0x6000_0003]
        );
        assert_eq!(given.table[26..29], [0xF000_0005, 0xF000_0006, EMPTY]);
        assert_eq!(
            given.list,
            [0x2000_0000, 0xF000_0041, 0x6042_0001, 0xF000_0009]
        );
        assert_eq!(reference::table::check_table(&given.table), 0);
    }

    const EMPTY: u32 = reference::words::EMPTY_SLOT;

    #[test]
    fn drawn_lines_go_both_ways() {
        let mut rng = Rng::new(46);
        for _ in 0..400 {
            let table = generate::table(&mut rng, 16, 32);
            let list = generate::list(&mut rng, &table, 60);
            let line = Input { table, list };
            let text = write(&line, &Names::none());
            assert_eq!(input(&text), line, "{text}");
            let names = read(&text).unwrap().names;
            assert_eq!(write(&line, &names), text);
        }
    }

    #[test]
    fn words_as_text_describe_no_line() {
        assert!(!is_described(
            "table 10000100 20000000\ndomain 0 link\nendpoint 1 a\nlist"
        ));
        assert!(is_described("calls\n"));
    }

    #[test]
    fn calls_alone_are_read_with_the_names_of_their_line() {
        let names = Names::given("domain 0 link\nendpoint 1 routes");
        let calls =
            "# evening\ncalls\n  link sends 5 to routes\n\nmy-rights caller 7\nwords F0000009";
        assert!(has_calls_alone(calls) && has_calls_alone("link sends 5 to routes"));
        for other in ["list 50000000", "50000000", "", &format!("{LINE}calls\n")] {
            assert!(!has_calls_alone(other), "{other}");
        }
        let given = read_calls(calls, &names, Some((2, 2))).unwrap();
        let list = Input::parse(&given.bytes).unwrap().list;
        assert_eq!(list, [0x2000_0100, 0xF000_0005, 0x51C0_0000, 0xF000_0009]);
        assert_eq!(given.lines, [3, 3, 5, 6]);
        assert_eq!(given.warnings, ["line 5: the table has no domain 7"]);
        let wrong = read_calls("sned caller 0\nlink sends 5 at 6\nlink", &names, None);
        let wrong = wrong.unwrap_err();
        let starts = [
            "line 1, column 1: there is no call `sned`",
            "line 2, column 14",
            "line 3",
        ];
        assert!(
            wrong
                .lines()
                .zip(starts)
                .all(|(line, start)| line.starts_with(start)),
            "{wrong}"
        );
    }

    #[test]
    fn a_list_that_is_too_long_is_one_mistake() {
        let wrong = read_calls(&"my-rights caller 0\n".repeat(4099), &Names::none(), None);
        let wanted = "line 4097, column 1: the list has more than 4,096 words here";
        assert_eq!(wrong, Err(wanted.to_string()));
    }

    #[test]
    fn everything_that_is_wrong_is_reported_at_once() {
        let wrong = mistakes(
            "domain link\ndomain 7\nendpoint a owner lnik capacity 9\nendpoint b owner lnik \
             capacity 2\nrights link on belt: SEND\nrights link on link: SEND+SIT\ncalls\n\
             link sends 5 to c\nlink sends 5 at b",
        );
        let starts = [
            "line 2, column 8: `7` is a number, so it can't be a name",
            "line 3, column 18: `lnik`: no domain has this name; did you mean `link`?",
            "line 3, column 32: `9` is no number from 1 to 8",
            "line 4, column 18: `lnik`: no domain has this name; did you mean `link`?",
            "line 5, column 16: `belt`: no domain has this name",
            "line 6, column 22: `SEND+SIT` is no set of rights",
            "line 8, column 17: endpoint is `c`, which is no number: no endpoint has this name",
            "line 9, column 14: `to` is wanted here, not `at`",
        ];
        for (wrong, start) in wrong.iter().zip(starts) {
            assert!(wrong.starts_with(start), "{wrong} is no {start}");
        }
        assert_eq!(wrong.len(), starts.len(), "{wrong:?}");
    }

    #[test]
    fn repeated_names_and_rights_are_wrong() {
        let wrong = mistakes("domain a\ndomain a\nrights 0 on 0: SEND\nrights 0 on 0: GRANT");
        assert_eq!(
            wrong[0],
            "line 2, column 8: `a` is the name of domain 0 already"
        );
        assert_eq!(
            wrong[1],
            "line 4, column 13: these rights are given already"
        );
        let wrong = mistakes(
            "domain a\nendpoint e owner a capacity 1 name 2\nendpoint f owner a capacity 1",
        );
        let same = "line 3, column 1: its name is 2, as that of endpoint 0 (e): give it another";
        assert!(wrong[0].starts_with(same), "{}", wrong[0]);
    }

    #[test]
    fn numbers_outside_the_table_are_warned_of() {
        let given =
            read("domain a\nendpoint e owner a capacity 1\ncalls\n9 sends 5 to e\na sends 5 to 7")
                .unwrap();
        let warned = [
            "line 4: the table has no domain 9",
            "line 5: the table has no endpoint 7",
        ];
        assert_eq!(given.warnings, warned);
        assert!(read(LINE).unwrap().warnings.is_empty());
    }
}
