//! Turns as text, the way they are written by hand: a table, then what happens, one event
//! a line.
//!
//! The help of `balkwizu turns` says what a text looks like.

use crate::kernels::layer::Event;
use crate::text::calls::{self, number};
use crate::text::described::words_given;
use crate::text::given::Given;
use crate::text::hex::{self, lines_of, words_of};
use crate::text::mistakes::{reported, Mistake};
use crate::text::names::{Names, Namings};
use crate::text::sentences::{self, items_of, Item, Wrong};

/// The most times that one line can ask for, and all lines together, so that a few lines too
/// many can't take all memory.
const TIMES_MAX: u32 = 10_000;
const ALL_TIMES_MAX: u64 = 100_000;

/// The most words that are handed in at once: any number that no list may have.
const WORDS_MAX: usize = 4097;

/// A line with something in it, taken apart.
type Line<'a> = (usize, Vec<Item<'a>>);

/// A text taken apart. Its events are read once the names of the table are known.
#[derive(Debug, PartialEq, Eq)]
pub struct Script<'a> {
    pub table: Table,
    /// The lines that give names, beside those of the table.
    pub namings: Namings<'a>,
    events: Vec<Line<'a>>,
}

/// Where the table is.
#[derive(Debug, PartialEq, Eq)]
pub enum Table {
    /// In the text.
    Here(Given),
    /// In a file of this name.
    File(String),
}

/// What one line says: an event, and how often it happens.
#[derive(Debug, PartialEq, Eq)]
pub struct Happens {
    pub line: usize,
    pub event: Event,
    pub times: u32,
}

/// Takes a text apart; or what is wrong with its table, by line and column.
pub fn read(text: &str) -> Result<Script<'_>, String> {
    let lines: Vec<(usize, &str)> = lines_of(text).collect();
    let is_event = |(_, line): &(usize, &str)| {
        let first = line.split_whitespace().next();
        matches!(first, Some("hand" | "turn" | "turns"))
    };
    let first = lines.iter().position(is_event).unwrap_or(lines.len());
    let (head, rest) = lines.split_at(first);
    let mut namings = Namings::default();
    let unnamed = without_names(head, &mut namings);
    let table = match file_of(&unnamed)? {
        Some(file) => Table::File(file),
        None => {
            // The names of a table that is given here come with it.
            namings = Namings::default();
            Table::Here(table_in(head, &unnamed)?)
        }
    };
    let events = without_names(rest, &mut namings);
    Ok(Script {
        table,
        namings,
        events,
    })
}

/// The lines that have something in them and give no name.
fn without_names<'a>(lines: &[(usize, &'a str)], namings: &mut Namings<'a>) -> Vec<Line<'a>> {
    let items = lines.iter().map(|(number, line)| (*number, items_of(line)));
    items
        .filter(|(number, items)| !items.is_empty() && !namings.take(*number, items))
        .collect()
}

/// The file that the lines before the first event name as the table's.
fn file_of(head: &[Line]) -> Result<Option<String>, String> {
    let Some(((_, first), rest)) = head.split_first() else {
        return Ok(None);
    };
    let digits = |item: &str| item.bytes().all(|byte| byte.is_ascii_hexdigit());
    match first.as_slice() {
        [table, file] if matches!(table.text, "table" | "table:") => {
            let is_word = words_of(file.text).is_ok() || digits(file.text) && !rest.is_empty();
            match (is_word, rest.is_empty()) {
                (true, _) => Ok(None),
                (false, true) => Ok(Some(file.text.to_string())),
                (false, false) => Err(reported(rest.iter().map(no_event).collect())),
            }
        }
        _ => Ok(None),
    }
}

/// What is said of a line that is no event.
fn no_event((line, items): &Line) -> Mistake {
    let (first, column) = (items[0].text, items[0].column);
    let why = format!("there is no `{first}` here, only `hand in`, `turn` and `turns`");
    (*line, column, why)
}

/// The table that the lines before the first event give, as words or in words.
fn table_in(head: &[(usize, &str)], unnamed: &[Line]) -> Result<Given, String> {
    let text: Vec<&str> = head.iter().map(|(_, line)| *line).collect();
    let text = text.join("\n");
    let in_words = crate::text::described::is_described(&text);
    match unnamed.first() {
        None if !in_words => return Err("there is no table in it".to_string()),
        Some((line, items)) if !in_words && !items[0].text.starts_with("table") => {
            let why = "a table comes first: `table`, and its words or a file".to_string();
            return Err(reported(vec![(*line, items[0].column, why)]));
        }
        _ => {}
    }
    let given = hex::read(&text)?;
    match given.lines.first() {
        None => Ok(given),
        Some(&line) => {
            let why = "a list has no place here: calls are handed in".to_string();
            Err(reported(vec![(line, 1, why)]))
        }
    }
}

impl Script<'_> {
    /// What happens, read with the names of the table; or every mistake in it.
    pub fn events(&self, names: &Names) -> Result<Vec<Happens>, String> {
        let mut events = Vec::new();
        let mut mistakes = Vec::new();
        for (line, items) in &self.events {
            match read_event(*line, items, names) {
                Ok(happens) => events.push(happens),
                Err((column, why)) => mistakes.push((*line, column, why)),
            }
        }
        let mut all = 0;
        let past = events.iter().find(|happens| {
            all += u64::from(happens.times);
            all > ALL_TIMES_MAX
        });
        mistakes.extend(past.map(|happens| {
            let why = "more than 100,000 turns and calls up to here".to_string();
            (happens.line, 1, why)
        }));
        match mistakes.is_empty() {
            true => Ok(events),
            false => Err(reported(mistakes)),
        }
    }
}

/// The event of a line, with how often it happens.
fn read_event(line: usize, items: &[Item], names: &Names) -> Result<Happens, Wrong> {
    let (items, times) = times_of(items)?;
    let happens = |event, times| Ok(Happens { line, event, times });
    let (first, rest) = (&items[0], &items[1..]);
    match (first.text, rest) {
        ("hand", rest) => happens(hand_in(first, rest, names)?, times),
        ("turn", []) => happens(Event::Turn, times),
        ("turn", [more, ..]) => {
            let why = format!("`{}` comes after a turn: `turns 3` are three", more.text);
            Err((more.column, why))
        }
        ("turns", rest) => match (rest, rest.first().and_then(|count| number(count.text))) {
            ([_], Some(count @ 1..=TIMES_MAX)) if times == 1 => happens(Event::Turn, count),
            _ => Err((
                first.column,
                "`turns` needs one number, 1 to 10,000".to_string(),
            )),
        },
        _ => {
            let (_, column, why) = no_event(&(line, items.to_vec()));
            Err((column, why))
        }
    }
}

/// A line without `8 times` at its end, and how often that is.
fn times_of<'a, 'b>(items: &'b [Item<'a>]) -> Result<(&'b [Item<'a>], u32), Wrong> {
    let Some((last, rest)) = items.split_last() else {
        return Ok((items, 1));
    };
    if last.text != "times" {
        return Ok((items, 1));
    }
    match rest
        .split_last()
        .map(|(count, event)| (number(count.text), event))
    {
        Some((Some(times @ 1..=TIMES_MAX), event)) if !event.is_empty() => Ok((event, times)),
        _ => {
            let why = "`times` comes after an event and a number, 1 to 10,000".to_string();
            Err((last.column, why))
        }
    }
}

/// Who hands in what.
fn hand_in(hand: &Item, rest: &[Item], names: &Names) -> Result<Event, Wrong> {
    let wrong = |why: &str| Err((hand.column, why.to_string()));
    let [within, items @ ..] = rest else {
        return wrong("`hand` comes without `in`");
    };
    if within.text != "in" {
        return wrong("`hand` comes without `in`");
    }
    let Some((who, call)) = items.split_first() else {
        return wrong("who hands in is missing");
    };
    let named = || names.domain_called(who.text).map(|domain| domain as u32);
    let domain = number(who.text).or_else(named).ok_or_else(|| {
        let why = names.no_domain(who.text);
        (who.column, format!("`{}` is no domain: {why}", who.text))
    })?;
    let words = match call {
        [] => return wrong("what is handed in is missing"),
        [words, given @ ..] if words.text == "words" => words_given(given)?,
        [verb, ..] if sentences::is_verb(verb.text) => calls::read(items, names)?.words()?,
        _ => calls::read(call, names)?.words()?,
    };
    match words.len() {
        0..=WORDS_MAX => Ok(Event::HandIn { domain, words }),
        _ => wrong("more than 4,097 words are handed in at once"),
    }
}

#[cfg(test)]
mod tests {
    use super::*;

    const TEXT: &str = "
table                 # one domain
10000100 20000000
hand in 0 my-rights caller 0
hand in 0x1 words F0000005   # a stray
turn

turns 3
turn 7 times
";

    fn names() -> Names {
        Names::given("domain 0 link\ndomain 2 drives\nendpoint 1 belts")
    }

    fn events(text: &str) -> Result<Vec<Happens>, String> {
        let text = format!("table T\n{text}");
        let script = read(&text).unwrap();
        script.events(&names())
    }

    fn wrong(text: &str) -> String {
        read(text)
            .map(|script| script.events(&Names::none()))
            .unwrap_err()
    }

    #[test]
    fn a_text_is_a_table_and_events_with_their_lines() {
        let script = read(TEXT).unwrap();
        let bytes = [2, 0, 0, 0, 0, 1, 0, 0x10, 0, 0, 0, 0x20];
        assert!(matches!(&script.table, Table::Here(given) if given.bytes == bytes));
        let events = script.events(&Names::none()).unwrap();
        let lines: Vec<usize> = events.iter().map(|happens| happens.line).collect();
        assert_eq!(lines, [4, 5, 6, 8, 9]);
        let times: Vec<u32> = events.iter().map(|happens| happens.times).collect();
        assert_eq!(times, [1, 1, 1, 3, 7]);
        let handed = |domain, word| Event::HandIn {
            domain,
            words: vec![word],
        };
        assert_eq!(events[0].event, handed(0, 0x5000_0000));
        assert_eq!(events[1].event, handed(1, 0xF000_0005));
    }

    #[test]
    fn calls_are_handed_in_by_names_and_in_sentences() {
        let send = Event::HandIn {
            domain: 0,
            words: vec![0x2000_0100, 0xF000_0005],
        };
        for line in [
            "hand in link sends 5 to belts",
            "hand in 0 send caller link endpoint belts message 5",
            "hand in link link sends 5 to 1",
        ] {
            let burst = events(&format!("{line}  8 times")).unwrap();
            assert_eq!((&burst[0].event, burst[0].times), (&send, 8), "{line}");
        }
        let other = events("hand in link drives asks for its rights").unwrap();
        let words = vec![0x5080_0000];
        assert_eq!(other[0].event, Event::HandIn { domain: 0, words });
    }

    #[test]
    fn a_table_may_be_in_a_file_or_in_words() {
        let script = read("# a file\ntable four.txt # there\nturn").unwrap();
        assert_eq!(script.table, Table::File("four.txt".to_string()));
        for file in ["list-of-line.txt", "table.txt", "face"] {
            let named = Table::File(file.to_string());
            assert_eq!(read(&format!("table {file}\nturn")).unwrap().table, named);
            assert_eq!(read(&format!("table: {file}\nturn")).unwrap().table, named);
        }
        let script = read("domain link\nendpoint e owner link capacity 1\nturn").unwrap();
        let Table::Here(given) = script.table else {
            panic!("a table");
        };
        assert_eq!(given.names.endpoint(0), "endpoint 0 (e)");
    }

    #[test]
    fn few_lines_take_no_more_memory_than_there_should_be() {
        let most = "turns 10000\n".repeat(10);
        assert_eq!(events(&most).unwrap().len(), 10);
        let past = events(&format!("{most}turn\nturn")).unwrap_err();
        let wanted = "line 12, column 1: more than 100,000 turns and calls up to here";
        assert_eq!(past, wanted);
        assert!(events("hand in 0 words 50000000*4097").is_ok());
        let past = events("hand in 0 words 50000000*4097 50000000").unwrap_err();
        assert!(past.ends_with(": more than 4,097 words are handed in at once"));
    }

    #[test]
    fn lines_that_give_names_are_anywhere() {
        let text = "domain 0 link\ntable T\nendpoint 1 belts # those\nturn\ndomain 2 drives";
        let script = read(text).unwrap();
        assert_eq!(script.table, Table::File("T".to_string()));
        assert_eq!(script.namings.added_to(Names::none(), &[]), Ok(names()));
        let script = read("table 10000100\ndomain 0 link\n20000000\nturn\ndomain 0 a").unwrap();
        let Table::Here(given) = script.table else {
            panic!("a table");
        };
        assert_eq!(given.names.domain(0), "domain 0 (link)");
        let twice = script.namings.added_to(given.names, &[]).unwrap_err();
        let why = "domain 0 has a name already".to_string();
        assert_eq!(twice, [(5, 10, why)]);
    }

    #[test]
    fn no_words_and_large_numbers_can_be_handed_in() {
        let handed = events("hand in 99999999999 words").unwrap();
        let (domain, words) = (u32::MAX, Vec::new());
        assert_eq!(handed[0].event, Event::HandIn { domain, words });
    }

    #[test]
    fn a_table_that_is_wrong_is_reported_by_its_line() {
        assert_eq!(wrong("# nothing\n"), "there is no table in it");
        assert_eq!(wrong("turn"), "there is no table in it");
        for (text, start) in [
            ("\n10000100", "line 2, column 1: a table comes first"),
            (
                "table\n1000010\nturn",
                "line 2, column 1: `1000010` is no word",
            ),
            (
                "table 1000010\n20000000\nturn",
                "line 1, column 7: `1000010`",
            ),
            (
                "table 10000100 20000000\nlist 50000000\nturn",
                "line 2, column 1: a list has",
            ),
            (
                "table 10000100\nhnad in 0\nturn",
                "line 2, column 1: `hnad` is no word",
            ),
            // The file is no word, and the line after it is to blame.
            (
                "table T\nhnad in 0\nturn",
                "line 2, column 1: there is no `hnad` here",
            ),
        ] {
            assert!(wrong(text).starts_with(start), "{}", wrong(text));
        }
    }

    #[test]
    fn every_wrong_event_is_reported_by_line_and_column() {
        for (line, why) in [
            ("trun", "column 1: there is no `trun` here"),
            ("hand 0", "column 1: `hand` comes without `in`"),
            ("hand in", "column 1: who hands in is missing"),
            (
                "hand in lnik turn",
                "column 9: `lnik` is no domain: no domain has this name; did you mean `link`?",
            ),
            ("hand in 0", "column 1: what is handed in is missing"),
            (
                "hand in 0 sned caller 0",
                "column 11: there is no call `sned`",
            ),
            (
                "hand in 0 my-rights caller 64",
                "column 28: caller 64 exceeds its 6 bits",
            ),
            ("hand in 0 words F00", "column 17: `F00` is no word"),
            ("turn 3", "column 6: `3` comes after a turn"),
            ("turn 0 times", "column 8: `times` comes after an event"),
            ("times", "column 1: `times` comes after an event"),
            ("turns", "column 1: `turns` needs one number, 1 to 10,000"),
            ("turns 0", "column 1: `turns` needs one"),
            ("turns 10001", "column 1: `turns` needs one"),
            ("turns 3 4", "column 1: `turns` needs one"),
        ] {
            let both = events(&format!("turn\n{line}\nturn\n{line}")).unwrap_err();
            let starts = [format!("line 3, {why}"), format!("line 5, {why}")];
            let lines = both.lines().zip(&starts);
            assert!(
                lines.clone().all(|(line, start)| line.starts_with(start)),
                "{both}"
            );
            assert_eq!(both.lines().count(), 2);
        }
    }
}
