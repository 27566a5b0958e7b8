//! A call as a sentence, as `link sends 65 to routes`, and back.

use reference::calls::{GRANT, LOOK_UP, MY_ENDPOINTS, MY_RIGHTS, RECEIVE, REMOVE, REVOKE, SEND};
use reference::writer::COLUMNS;

use crate::text::calls::{
    Field, Typed, CALLER, ENDPOINT, HOLDER, MESSAGE, NAME, RECIPIENT, RIGHTS, TARGET,
};
use crate::text::explain::rights_in_words;
use crate::text::names::Names;

/// A word of a text with its place, the column counted from 1.
#[derive(Debug, Clone, Copy, PartialEq, Eq)]
pub struct Item<'a> {
    pub column: usize,
    pub text: &'a str,
}

/// What is wrong, and in which column.
pub type Wrong = (usize, String);

/// What a sentence has in one place: a word as it is, or a field.
#[derive(Clone, Copy)]
enum Part {
    Word(&'static str),
    Value(Field),
}

use Part::{Value, Word};

/// The sentence of each kind of call.
#[rustfmt::skip]
const SENTENCES: [(u32, &[Part]); 8] = [
    (LOOK_UP, &[Value(CALLER), Word("looks"), Word("up"), Word("name"), Value(NAME)]),
    (SEND, &[Value(CALLER), Word("sends"), Value(MESSAGE), Word("to"), Value(ENDPOINT)]),
    (RECEIVE, &[Value(CALLER), Word("receives"), Word("from"), Value(ENDPOINT)]),
    (MY_ENDPOINTS, &[Value(CALLER), Word("asks"), Word("for"), Word("its"), Word("endpoints")]),
    (MY_RIGHTS, &[Value(CALLER), Word("asks"), Word("for"), Word("its"), Word("rights")]),
    (GRANT, &[Value(CALLER), Word("grants"), Value(RECIPIENT), Value(RIGHTS), Word("on"), Value(TARGET)]),
    (REMOVE, &[Value(CALLER), Word("gives"), Word("up"), Value(RIGHTS), Word("on"), Value(TARGET)]),
    (REVOKE, &[Value(CALLER), Word("takes"), Value(RIGHTS), Word("on"), Value(TARGET), Word("back"),
        Word("from"), Value(HOLDER)]),
];

/// The words of a line with their columns.
pub fn items_of(line: &str) -> Vec<Item<'_>> {
    items_between(line, char::is_whitespace)
}

/// What a line has between gaps of some letters, with its columns.
pub fn items_between(line: &str, gap: fn(char) -> bool) -> Vec<Item<'_>> {
    let words = line.split(gap).filter(|text| !text.is_empty());
    let items = words.map(|text| {
        let before = text.as_ptr() as usize - line.as_ptr() as usize;
        let column = line[..before].chars().count() + 1;
        Item { column, text }
    });
    items.collect()
}

/// Whether a word is the verb of a sentence.
pub fn is_verb(word: &str) -> bool {
    SENTENCES.iter().any(|(_, parts)| verb(parts) == word)
}

/// The call of a sentence, or what is wrong with it.
pub fn read(items: &[Item], names: &Names) -> Result<Typed, Wrong> {
    let (kind, parts) = sentence_of(items)?;
    let mut typed = Typed::new(kind);
    let mut places = items.iter();
    for part in parts {
        let item = places.next().ok_or_else(|| ended(items, parts))?;
        match part {
            Word(word) if *word == item.text => {}
            Word(word) => return Err((item.column, wanted(word, item.text, parts))),
            Value(field) => {
                let number = field.number(item.text, names);
                let number = number.map_err(|why| (item.column, why))?;
                typed.set(*field, number, item);
            }
        }
    }
    match places.next() {
        None => Ok(typed),
        Some(more) => Err((more.column, format!("`{}` is too much", more.text))),
    }
}

/// The sentence that is meant, by its verb and, of two with the same verb, its end.
fn sentence_of(items: &[Item]) -> Result<(u32, &'static [Part]), Wrong> {
    let first = items
        .first()
        .map_or((1, ""), |item| (item.column, item.text));
    let Some(verb_item) = items.get(1) else {
        return Err((first.0, format!("`{}` is no call", first.1)));
    };
    let verbs = SENTENCES
        .iter()
        .filter(|(_, parts)| verb(parts) == verb_item.text);
    let ends = |parts: &[Part]| match (parts.last(), items.last()) {
        (Some(Word(word)), Some(item)) => *word == item.text,
        _ => true,
    };
    let found = verbs
        .clone()
        .find(|(_, parts)| ends(parts))
        .or(verbs.clone().next());
    found.copied().ok_or_else(|| {
        let known: Vec<&str> = SENTENCES.iter().map(|(_, parts)| verb(parts)).collect();
        let mut known = known;
        known.dedup();
        let known = known.join(", ");
        (
            verb_item.column,
            format!("`{}` is no verb of a call: {known}", verb_item.text),
        )
    })
}

fn verb(parts: &'static [Part]) -> &'static str {
    match parts.get(1) {
        Some(Word(word)) => word,
        _ => "",
    }
}

/// What is said of a sentence that ends too early.
fn ended(items: &[Item], parts: &[Part]) -> Wrong {
    let last = items
        .last()
        .map_or(1, |item| item.column + item.text.chars().count());
    (last, format!("the call ends too early: {}", shape(parts)))
}

fn wanted(word: &str, there: &str, parts: &[Part]) -> String {
    format!("`{word}` is wanted here, not `{there}`: {}", shape(parts))
}

/// A sentence with the names of its fields.
fn shape(parts: &[Part]) -> String {
    let words = parts.iter().map(|part| match part {
        Word(word) => (*word).to_string(),
        Value(field) => field.name.to_uppercase(),
    });
    words.collect::<Vec<_>>().join(" ")
}

/// The sentence of a call by its five words; what `names` has no name for is a number.
pub fn write(columns: &[u32; COLUMNS], names: &Names) -> String {
    let sentence = SENTENCES.iter().find(|(kind, _)| *kind == columns[0]);
    let (_, parts) = sentence.expect("a kind of call");
    let words = parts.iter().map(|part| match part {
        Word(word) => (*word).to_string(),
        Value(field) => value(field, columns[field.column], names),
    });
    words.collect::<Vec<_>>().join(" ")
}

fn value(field: &Field, number: u32, names: &Names) -> String {
    let name = match field.name {
        "endpoint" => names.endpoint_name(number as usize),
        "rights" if (1..16).contains(&number) => return rights_in_words(number),
        "rights" | "message" | "name" => None,
        _ => names.domain_name(number as usize),
    };
    name.map_or(number.to_string(), str::to_string)
}

#[cfg(test)]
mod tests {
    use super::*;
    use reference::generate::{value, Rng};
    use reference::writer::to_columns;

    fn names() -> Names {
        Names::given("domain 0 link\ndomain 1 loader\ndomain 2 drive-a\nendpoint 0 routes")
    }

    fn columns(line: &str) -> Result<[u32; COLUMNS], Wrong> {
        read(&items_of(line), &names()).map(|call| call.columns)
    }

    #[test]
    fn each_kind_has_its_sentence() {
        let lines = [
            ("link looks up name 17", [1, 0, 0, 0, 17]),
            ("link sends 65 to routes", [2, 0, 0, 0, 65]),
            ("loader receives from routes", [3, 1, 0, 0, 0]),
            ("drive-a asks for its endpoints", [4, 2, 0, 0, 0]),
            ("drive-a asks for its rights", [5, 2, 0, 0, 0]),
            ("loader grants link SEND+GRANT on drive-a", [6, 1, 2, 0, 3]),
            ("loader gives up SEND on drive-a", [7, 1, 2, 0, 1]),
            (
                "loader takes REVOKE on drive-a back from link",
                [8, 1, 2, 0, 8],
            ),
        ];
        for (line, call) in lines {
            assert_eq!(columns(line), Ok(call));
            assert_eq!(write(&call, &names()), line);
        }
    }

    #[test]
    fn every_call_goes_both_ways() {
        let mut rng = Rng::new(17);
        for _ in 0..2000 {
            let call = to_columns(&value(&mut rng)).unwrap();
            assert_eq!(columns(&write(&call, &names())), Ok(call));
        }
    }

    #[test]
    fn a_mistake_is_reported_in_its_column() {
        let wrong = |line: &str| columns(line).unwrap_err();
        assert_eq!(wrong("link").0, 1);
        let verb = wrong("link send 65 to routes");
        assert_eq!(verb.0, 6);
        assert!(verb
            .1
            .starts_with("`send` is no verb of a call: looks, sends, "));
        let word = wrong("link sends 65 at routes");
        assert_eq!(word.0, 15);
        assert!(word
            .1
            .starts_with("`to` is wanted here, not `at`: CALLER sends MESSAGE to"));
        assert_eq!(wrong("link sends 65 to").0, 17);
        assert_eq!(wrong("link sends 65 to routes now").0, 25);
        let name = wrong("lnik sends 65 to routes");
        assert_eq!(name.0, 1);
        assert!(name.1.ends_with("did you mean `link`?"), "{}", name.1);
    }
}
