//! Calls as text, one a line, the way they are written by hand, and back.
//!
//! The help of `balkwizu write` says what a text looks like. A call goes to the writer and
//! comes from the reader as five words: its kind, its caller, A, B, and C or what the
//! second word holds.

use reference::calls::{GRANT, LOOK_UP, MY_ENDPOINTS, MY_RIGHTS, RECEIVE, REMOVE, REVOKE, SEND};
use reference::writer::COLUMNS;

use crate::text::explain::NAMED_RIGHTS;
use crate::text::names::Names;
use crate::text::sentences::{self, Item, Wrong};

/// A kind of call: its name and number, and its fields in the order that they are
/// written in.
struct Kind {
    name: &'static str,
    number: u32,
    fields: &'static [Field],
}

/// A field of a call: which of the five words it is, and how many bits it has.
#[derive(Debug, Clone, Copy, PartialEq, Eq)]
pub struct Field {
    pub name: &'static str,
    pub column: usize,
    bits: u32,
}

impl Field {
    const fn new(name: &'static str, column: usize, bits: u32) -> Field {
        Field { name, column, bits }
    }

    /// The number that is typed: as one, by the name of what it is the number of, or as a set
    /// of rights.
    pub fn number(&self, typed: &str, names: &Names) -> Result<u32, String> {
        let named = || match self.name {
            "rights" => set_of(typed),
            "endpoint" => names.endpoint_called(typed).map(|number| number as u32),
            "name" | "message" => None,
            _ => names.domain_called(typed).map(|number| number as u32),
        };
        let number = number(typed).or_else(named);
        number.ok_or_else(|| self.no_number(typed, names))
    }

    /// What is said where no number is given.
    fn no_number(&self, typed: &str, names: &Names) -> String {
        let wanted = match self.name {
            "rights" => "a set is written as SEND+GRANT, of SEND, GRANT, REMOVE and REVOKE".into(),
            "name" | "message" => "17 or 0x11 is one".into(),
            _ if names.is_empty() => "17 or 0x11 is one; no names are given here".into(),
            "endpoint" => names.no_endpoint(typed),
            _ => names.no_domain(typed),
        };
        format!("{} is `{typed}`, which is no number: {wanted}", self.name)
    }
}

/// The set of rights that is typed, as `SEND+GRANT`.
pub fn set_of(typed: &str) -> Option<u32> {
    let bit = |name| {
        NAMED_RIGHTS
            .iter()
            .find(|(.., known)| *known == name)
            .map(|(bit, ..)| bit)
    };
    let bits = typed.split('+').map(bit).collect::<Option<Vec<_>>>()?;
    Some(bits.iter().fold(0, |set, bit| set | *bit))
}

pub const CALLER: Field = Field::new("caller", 1, 6);
pub const TARGET: Field = Field::new("target", 2, 6);
pub const ENDPOINT: Field = Field::new("endpoint", 3, 8);
pub const RECIPIENT: Field = Field::new("recipient", 3, 8);
pub const HOLDER: Field = Field::new("holder", 3, 8);
pub const RIGHTS: Field = Field::new("rights", 4, 8);
pub const NAME: Field = Field::new("name", 4, 28);
pub const MESSAGE: Field = Field::new("message", 4, 28);

#[rustfmt::skip]
const KINDS: [Kind; 8] = [
    Kind { name: "look-up", number: LOOK_UP, fields: &[CALLER, NAME] },
    Kind { name: "send", number: SEND, fields: &[CALLER, ENDPOINT, MESSAGE] },
    Kind { name: "receive", number: RECEIVE, fields: &[CALLER, ENDPOINT] },
    Kind { name: "my-endpoints", number: MY_ENDPOINTS, fields: &[CALLER] },
    Kind { name: "my-rights", number: MY_RIGHTS, fields: &[CALLER] },
    Kind { name: "grant", number: GRANT, fields: &[CALLER, TARGET, RECIPIENT, RIGHTS] },
    Kind { name: "remove", number: REMOVE, fields: &[CALLER, TARGET, RIGHTS] },
    Kind { name: "revoke", number: REVOKE, fields: &[CALLER, TARGET, HOLDER, RIGHTS] },
];

/// A call of a text.
#[derive(Debug, Clone, PartialEq, Eq)]
pub struct Typed {
    /// Its five words. A number that has no word is there as the largest that has one,
    /// which is more than any field can hold.
    pub columns: [u32; COLUMNS],
    /// Its fields as they are written, each in its column of the line.
    fields: Vec<(Field, usize, String)>,
}

impl Typed {
    /// A call of some kind whose fields are still to be set.
    pub fn new(kind: u32) -> Typed {
        let mut columns = [0; COLUMNS];
        columns[0] = kind;
        Typed {
            columns,
            fields: Vec::new(),
        }
    }

    /// Sets a field to the number that was typed.
    pub fn set(&mut self, field: Field, number: u32, typed: &Item) {
        self.columns[field.column] = number;
        self.fields
            .push((field, typed.column, typed.text.to_string()));
    }

    /// The words of the call, or the first field that exceeds its bits.
    pub fn words(&self) -> Result<Vec<u32>, Wrong> {
        let mut fields = self.fields.iter();
        let large = fields.find(|(field, ..)| self.columns[field.column] >> field.bits != 0);
        if let Some((field, column, typed)) = large {
            let why = format!(
                "{} {typed} exceeds its {} bits: {} is the largest",
                field.name,
                field.bits,
                (1u32 << field.bits) - 1
            );
            return Err((*column, why));
        }
        let mut space = [0; 2];
        let (_, words) = reference::writer::write_columns(&self.columns, &mut space);
        Ok(space[..words].to_vec())
    }
}

/// What a call names by a number that a table of so many domains and endpoints hasn't.
pub fn beyond(columns: &[u32; COLUMNS], (domains, endpoints): (usize, usize)) -> Vec<String> {
    let beyond = kind_of(columns).fields.iter().filter_map(|field| {
        let (what, size) = match field.name {
            "endpoint" => ("endpoint", endpoints),
            "rights" | "name" | "message" => return None,
            _ => ("domain", domains),
        };
        let number = columns[field.column] as usize;
        (number >= size).then(|| format!("{what} {number}"))
    });
    beyond.collect()
}

/// Whether a word is the name of a kind of call.
pub fn is_kind(word: &str) -> bool {
    KINDS.iter().any(|kind| kind.name == word)
}

/// Whether a word is the name of a field of some kind of call.
fn is_field(word: &str) -> bool {
    let mut fields = KINDS.iter().flat_map(|kind| kind.fields);
    fields.any(|field| field.name == word)
}

/// The call of a line with something in it, as a sentence or by its fields; or what is wrong
/// with it.
pub fn read(items: &[Item], names: &Names) -> Result<Typed, Wrong> {
    let (first, rest) = items.split_first().expect("a line with something in it");
    let second = rest.first().map_or("", |item| item.text);
    let kind = KINDS.iter().find(|kind| kind.name == first.text);
    if sentences::is_verb(second) || kind.is_none() && !is_field(second) {
        return sentences::read(items, names);
    }
    let kind = kind.ok_or_else(|| {
        let (name, known) = (first.text, KINDS.map(|kind| kind.name).join(", "));
        let why = format!("there is no call `{name}`, only {known}");
        (first.column, why)
    })?;
    let mut call = Typed::new(kind.number);
    for pair in rest.chunks(2) {
        let field = kind.field(&pair[0])?;
        let wrong = |why: String| Err((pair[0].column, why));
        if call.fields.iter().any(|(given, ..)| *given == field) {
            return wrong(format!("{} is given a second time", field.name));
        }
        let Some(typed) = pair.get(1) else {
            return wrong(format!("{} has no number", field.name));
        };
        let number = field.number(typed.text, names);
        call.set(field, number.map_err(|why| (typed.column, why))?, typed);
    }
    let given = |wanted: &Field| call.fields.iter().any(|(given, ..)| given == wanted);
    match kind.fields.iter().find(|wanted| !given(wanted)) {
        None => Ok(call),
        Some(field) => Err((first.column, format!("{} needs {}", kind.name, field.name))),
    }
}

impl Kind {
    /// The field that is named.
    fn field(&self, named: &Item) -> Result<Field, Wrong> {
        let found = self.fields.iter().find(|field| field.name == named.text);
        found.copied().ok_or_else(|| {
            let names: Vec<&str> = self.fields.iter().map(|field| field.name).collect();
            let (name, names) = (named.text, names.join(", "));
            let why = format!("{} has no field `{name}`, only {names}", self.name);
            (named.column, why)
        })
    }
}

/// A decimal number, or a hexadecimal one behind 0x; as the largest word where it is
/// above that.
pub fn number(typed: &str) -> Option<u32> {
    let prefixed = typed.strip_prefix("0x").or(typed.strip_prefix("0X"));
    let (digits, radix) = prefixed.map_or((typed, 10), |digits| (digits, 16));
    let digits_only = digits.chars().all(|digit| digit.is_digit(radix));
    if digits.is_empty() || !digits_only {
        return None;
    }
    Some(u32::from_str_radix(digits, radix).unwrap_or(u32::MAX))
}

/// How many words a call is written in.
pub fn width(columns: &[u32]) -> usize {
    match columns[0] {
        LOOK_UP | SEND => 2,
        _ => 1,
    }
}

/// The kind of a call by its five words.
fn kind_of(columns: &[u32; COLUMNS]) -> &'static Kind {
    let kind = KINDS.iter().find(|kind| kind.number == columns[0]);
    kind.expect("a kind of call")
}

/// A call's line, with every field in its place and in decimal.
pub fn write(columns: &[u32; COLUMNS]) -> String {
    let kind = kind_of(columns);
    let fields = kind.fields.iter();
    let fields = fields.map(|field| format!(" {} {}", field.name, columns[field.column]));
    format!("{}{}\n", kind.name, fields.collect::<String>())
}

#[cfg(test)]
mod tests {
    use super::*;
    use crate::text::sentences::items_of;
    use reference::generate::{value, Rng};
    use reference::writer::to_columns;

    const EACH_KIND: &str = "\
look-up caller 1 name 17
send caller 0 endpoint 1 message 5
receive caller 2 endpoint 1
my-endpoints caller 2
my-rights caller 0
grant caller 1 target 2 recipient 0 rights 1
remove caller 1 target 2 rights 4
revoke caller 1 target 2 holder 3 rights 8
";

    fn typed(line: &str, names: &Names) -> Result<Typed, Wrong> {
        read(&items_of(line), names)
    }

    fn columns(text: &str) -> Vec<[u32; COLUMNS]> {
        let calls = text.lines().map(|line| typed(line, &Names::none()));
        calls.map(|call| call.unwrap().columns).collect()
    }

    fn wrong(line: &str) -> Wrong {
        typed(line, &Names::none()).unwrap_err()
    }

    #[test]
    fn each_kind_goes_both_ways() {
        let calls = columns(EACH_KIND);
        assert_eq!(calls[0], [1, 1, 0, 0, 17]);
        assert_eq!(calls[1], [2, 0, 0, 1, 5]);
        assert_eq!(calls[7], [8, 1, 2, 3, 8]);
        let back: String = calls.iter().map(write).collect();
        assert_eq!(back, EACH_KIND);
    }

    #[test]
    fn every_call_goes_both_ways() {
        let mut rng = Rng::new(7);
        for _ in 0..2000 {
            let call = to_columns(&value(&mut rng)).unwrap();
            assert_eq!(columns(&write(&call)), [call]);
        }
    }

    #[test]
    fn fields_may_have_other_orders_and_hexadecimal_numbers() {
        let line = "  send message 0x0F caller 0 endpoint 1";
        assert_eq!(columns(line), [[2, 0, 0, 1, 15]]);
    }

    #[test]
    fn names_are_taken_for_the_numbers_of_domains_and_endpoints() {
        let given = "domain 0 link\ndomain 1 loader\nendpoint 3 loader";
        let names = Names::given(given);
        let columns = |line: &str| typed(line, &names).map(|call| call.columns);
        let send = columns("send caller loader endpoint loader message 5");
        assert_eq!(send, Ok([2, 1, 0, 3, 5]));
        let grant = columns("grant caller link target loader recipient link rights 1");
        assert_eq!(grant, Ok([6, 0, 1, 0, 1]));
        assert_eq!(columns("my-rights caller 7"), Ok([5, 7, 0, 0, 0]));
        let set = columns("remove caller link target loader rights SEND+REVOKE");
        assert_eq!(set, Ok([7, 0, 1, 0, 9]));
        assert_eq!(columns("link sends 5 to loader"), Ok([2, 0, 0, 3, 5]));
        let (column, why) = columns("my-rights caller belts").unwrap_err();
        assert_eq!(column, 18);
        assert!(why.ends_with("no number: no domain has this name"));
        assert!(columns("look-up caller link name loader").is_err());
        assert!(columns("send caller link endpoint link message 5").is_err());
    }

    #[test]
    fn a_mistake_is_reported_by_its_column_and_field() {
        let (column, why) = wrong(" sned caller 0");
        assert_eq!(column, 2);
        assert!(why.starts_with("there is no call `sned`, only look-up, send,"));
        for (line, column, why) in [
            (
                "send caller 0 target 1 message 5",
                15,
                "send has no field `target`, only caller, endpoint, message",
            ),
            (
                "send caller 0 endpoint 1 caller 2",
                26,
                "caller is given a second time",
            ),
            ("my-rights caller", 11, "caller has no number"),
            ("send caller 0 message 5", 1, "send needs endpoint"),
        ] {
            assert_eq!(wrong(line), (column, why.to_string()));
        }
        for no_number in ["x", "-1", "0x", "1.5", "+1", "0xG"] {
            let (column, why) = wrong(&format!("my-rights caller {no_number}"));
            let start = format!("caller is `{no_number}`, which is no number");
            assert!(column == 18 && why.starts_with(&start), "{why}");
        }
    }

    #[test]
    fn a_field_that_exceeds_its_bits_is_reported_as_it_is_written() {
        let words = |line: &str| typed(line, &Names::none()).unwrap().words();
        let wrong = |column, why: &str| Err((column, why.to_string()));
        assert_eq!(
            words("send caller 0 endpoint 256 message 5"),
            wrong(24, "endpoint 256 exceeds its 8 bits: 255 is the largest")
        );
        assert_eq!(
            words("send caller 64 endpoint 256 message 5"),
            wrong(13, "caller 64 exceeds its 6 bits: 63 is the largest")
        );
        let large = "name 99999999999999999999 exceeds its 28 bits: 268435455 is the largest";
        assert_eq!(
            words("look-up caller 0 name 99999999999999999999"),
            wrong(23, large)
        );
        assert_eq!(
            words("look-up caller 63 name 0x0FFFFFFF"),
            Ok(vec![0x1FC0_0000, 0xFFFF_FFFF])
        );
    }

    #[test]
    fn numbers_that_a_table_has_not_are_found_in_each_field() {
        let beyond = |line: &str| beyond(&columns(line)[0], (4, 2));
        assert_eq!(beyond("send caller 3 endpoint 1 message 99"), [""; 0]);
        assert_eq!(
            beyond("send caller 4 endpoint 2 message 99"),
            ["domain 4", "endpoint 2"]
        );
        assert_eq!(
            beyond("grant caller 0 target 5 recipient 6 rights 1"),
            ["domain 5", "domain 6"]
        );
    }
}
