//! The names that a text gives to a line's domains and endpoints, printed beside their
//! numbers wherever these are.

use std::collections::BTreeMap;
use std::fmt::Display;

use crate::text::calls::number;
use crate::text::mistakes::Mistake;
use crate::text::sentences::{Item, Wrong};
use reference::table::{domains, endpoints, header_is_right, DOMAINS_MAX, ENDPOINTS_MAX};

/// The most characters of a name.
const NAME_LENGTH_MAX: usize = 24;

/// The names of a line's domains and endpoints, where its text gives some.
#[derive(Debug, Clone, Default, PartialEq, Eq)]
pub struct Names {
    domains: BTreeMap<usize, String>,
    endpoints: BTreeMap<usize, String>,
}

impl Names {
    /// Nobody has a name: all is printed by numbers alone.
    pub fn none() -> Names {
        Names::default()
    }

    pub fn is_empty(&self) -> bool {
        self.domains.is_empty() && self.endpoints.is_empty()
    }

    /// A domain in a sentence, as `domain 0` or `domain 0 (link)`.
    pub fn domain(&self, domain: usize) -> String {
        in_sentence("domain", domain, self.domain_name(domain))
    }

    /// An endpoint in a sentence, as `endpoint 1` or `endpoint 1 (drives)`.
    pub fn endpoint(&self, endpoint: usize) -> String {
        in_sentence("endpoint", endpoint, self.endpoint_name(endpoint))
    }

    /// A domain where space is scarce, as `0` or `0 link`.
    pub fn domain_label(&self, domain: usize) -> String {
        label(domain, self.domain_name(domain))
    }

    /// An endpoint where space is scarce, as `1` or `1 drives`.
    pub fn endpoint_label(&self, endpoint: usize) -> String {
        label(endpoint, self.endpoint_name(endpoint))
    }

    /// Some domains in a row, as `0 2` or `0 (link) 2 (drives)`.
    pub fn domain_row(&self, domains: &[usize]) -> String {
        let each = domains
            .iter()
            .map(|&domain| match self.domain_name(domain) {
                Some(name) => format!("{domain} ({name})"),
                None => domain.to_string(),
            });
        each.collect::<Vec<_>>().join(" ")
    }

    /// The name of a domain alone, where it has one.
    pub fn domain_name(&self, domain: usize) -> Option<&str> {
        self.domains.get(&domain).map(String::as_str)
    }

    /// The name of an endpoint alone, where it has one.
    pub fn endpoint_name(&self, endpoint: usize) -> Option<&str> {
        self.endpoints.get(&endpoint).map(String::as_str)
    }

    /// The domain that a word means, of so many: a number is taken as one, what is none as a
    /// name.
    pub fn domain_of(&self, word: &str, n: usize) -> Result<usize, String> {
        match word.parse::<usize>() {
            Ok(number) if number < n => Ok(number),
            Ok(number) => Err(not_there("domain", number, n)),
            Err(_) => self.domain_called(word).ok_or_else(|| {
                let known: Vec<&str> = self.domains.values().map(String::as_str).collect();
                let other = match self.endpoint_called(word) {
                    Some(_) => ", but an endpoint is",
                    None => "",
                };
                match known.is_empty() {
                    true => format!("no domain is called `{word}`{other}: the input names none"),
                    false => format!(
                        "no domain is called `{word}`{other}: there are {}",
                        known.join(", ")
                    ),
                }
            }),
        }
    }

    /// What is said of a word that no domain is called.
    pub fn no_domain(&self, word: &str) -> String {
        not_called(
            ("domain", &self.domains),
            ("an endpoint", &self.endpoints),
            word,
        )
    }

    /// What is said of a word that no endpoint is called.
    pub fn no_endpoint(&self, word: &str) -> String {
        not_called(
            ("endpoint", &self.endpoints),
            ("a domain", &self.domains),
            word,
        )
    }

    /// The domain of a name, where there is one.
    pub fn domain_called(&self, name: &str) -> Option<usize> {
        called(&self.domains, name)
    }

    /// The endpoint of a name, where there is one.
    pub fn endpoint_called(&self, name: &str) -> Option<usize> {
        called(&self.endpoints, name)
    }

    /// A text that has numbers alone, with the names beside them: for what those write who know
    /// none, as the judges of a kernel.
    pub fn beside(&self, reported: &str) -> String {
        let reported = beside_numbers(reported, "domain ", |domain| self.domain_name(domain));
        beside_numbers(&reported, "endpoint ", |endpoint| {
            self.endpoint_name(endpoint)
        })
    }

    /// The lines that give the names in a text.
    pub fn lines(&self) -> String {
        let line = |what| move |(number, name)| format!("{what} {number} {name}\n");
        let domains = self.domains.iter().map(line("domain"));
        let endpoints = self.endpoints.iter().map(line("endpoint"));
        domains.chain(endpoints).collect()
    }

    /// Gives a domain its name; what is wrong with it otherwise.
    pub fn name_domain(&mut self, domain: usize, name: &str) -> Result<(), String> {
        give(&mut self.domains, "domain", domain, name)
    }

    /// Gives an endpoint its name; what is wrong with it otherwise.
    pub fn name_endpoint(&mut self, endpoint: usize, name: &str) -> Result<(), String> {
        give(&mut self.endpoints, "endpoint", endpoint, name)
    }

    /// The same, with a name for each of so many domains and endpoints: one that has none is
    /// called by its number behind a letter.
    pub fn completed(&self, domains: usize, endpoints: usize) -> Names {
        Names {
            domains: completed(&self.domains, "d", domains),
            endpoints: completed(&self.endpoints, "e", endpoints),
        }
    }

    /// What these name otherwise than others: a number with two names, or a name of two
    /// numbers.
    pub fn differ_from(&self, others: &Names) -> Option<String> {
        let domains = differ("domain", &self.domains, &others.domains);
        domains.or_else(|| differ("endpoint", &self.endpoints, &others.endpoints))
    }

    /// Takes in what a line gives, as `domain 0 link`; what is wrong with it otherwise. `sizes`
    /// are how many domains and endpoints there are.
    fn add(&mut self, line: &[Item], sizes: (usize, usize)) -> Result<(), Wrong> {
        let (first, column) = line
            .first()
            .map_or(("domain", 1), |item| (item.text, item.column));
        let [what, number, name] = line else {
            let why = format!("a name is given as `{first} 0 NAME`, in a line of its own");
            return Err((column, why));
        };
        let (names, size) = match what.text {
            "domain" => (&mut self.domains, sizes.0),
            _ => (&mut self.endpoints, sizes.1),
        };
        let at = number_of(what.text, number.text, size).map_err(|why| (number.column, why))?;
        give(names, what.text, at, name.text).map_err(|why| (name.column, why))
    }
}

/// The first of some names that others give otherwise.
fn differ(
    what: &str,
    names: &BTreeMap<usize, String>,
    others: &BTreeMap<usize, String>,
) -> Option<String> {
    names
        .iter()
        .find_map(|(number, name)| match others.get(number) {
            Some(other) if other != name => {
                Some(format!("{what} {number} is `{name}` in it, and `{other}`"))
            }
            _ => {
                let other = called(others, name).filter(|other| other != number)?;
                Some(format!(
                    "`{name}` is {what} {number} in it, and {what} {other}"
                ))
            }
        })
}

/// Adds a name to those of its kind, unless there is something wrong with it.
fn give(
    names: &mut BTreeMap<usize, String>,
    what: &str,
    number: usize,
    name: &str,
) -> Result<(), String> {
    check_name(name)?;
    if names.contains_key(&number) {
        return Err(format!("{what} {number} has a name already"));
    }
    if let Some(other) = called(names, name) {
        return Err(format!("`{name}` is the name of {what} {other} already"));
    }
    names.insert(number, name.to_string());
    Ok(())
}

/// The names with one for each number below `size`.
fn completed(
    names: &BTreeMap<usize, String>,
    letter: &str,
    size: usize,
) -> BTreeMap<usize, String> {
    let mut all = names.clone();
    for number in 0..size {
        let mut name = format!("{letter}{number}");
        while !all.contains_key(&number) && called(&all, &name).is_some() {
            name.push('-');
        }
        all.entry(number).or_insert(name);
    }
    all
}

/// The lines of a text that give names, taken apart, each with its number.
#[derive(Debug, Clone, Default, PartialEq, Eq)]
pub struct Namings<'a>(Vec<(usize, Vec<Item<'a>>)>);

impl<'a> Namings<'a> {
    /// Takes a line that is meant to give a name; whether it is one.
    pub fn take(&mut self, number: usize, line: &[Item<'a>]) -> bool {
        let first = line.first().map(|item| item.text);
        let names = matches!(first, Some("domain" | "endpoint"));
        if names {
            self.0.push((number, line.to_vec()));
        }
        names
    }

    /// The names that the lines add to others, which must be those of something in the
    /// table; or every mistake in them.
    pub fn added_to(&self, mut names: Names, table: &[u32]) -> Result<Names, Vec<Mistake>> {
        let sizes = sizes(table);
        let mut mistakes = Vec::new();
        for (number, line) in &self.0 {
            if let Err((column, why)) = names.add(line, sizes) {
                mistakes.push((*number, column, why));
            }
        }
        match mistakes.is_empty() {
            true => Ok(names),
            false => Err(mistakes),
        }
    }
}

/// How many domains and endpoints can have a name: those of the table where its word 0
/// is right, otherwise as many as any table has.
pub fn sizes(table: &[u32]) -> (usize, usize) {
    match table.first() {
        Some(&header) if header_is_right(header) => (domains(table), endpoints(table)),
        _ => (DOMAINS_MAX, ENDPOINTS_MAX),
    }
}

/// A text with a name after each number that follows some word, unless it is there already.
fn beside_numbers<'a>(text: &str, word: &str, name: impl Fn(usize) -> Option<&'a str>) -> String {
    let mut parts = text.split(word);
    let mut text = parts.next().unwrap_or("").to_string();
    for part in parts {
        let digits = part.bytes().take_while(u8::is_ascii_digit).count();
        let (number, rest) = part.split_at(digits);
        let name = number.parse().ok().and_then(&name).unwrap_or("");
        let missing = !name.is_empty() && !rest.starts_with(&format!(" ({name}"));
        let beside = if missing {
            format!(" ({name})")
        } else {
            String::new()
        };
        text += &[word, number, &beside, rest].concat();
    }
    text
}

fn in_sentence(what: &str, number: usize, name: Option<&str>) -> String {
    match name {
        Some(name) => format!("{what} {number} ({name})"),
        None => format!("{what} {number}"),
    }
}

fn label(number: usize, name: Option<&str>) -> String {
    match name {
        Some(name) => format!("{number} {name}"),
        None => number.to_string(),
    }
}

fn number_of(what: &str, number: &str, size: usize) -> Result<usize, String> {
    let digits = !number.is_empty() && number.bytes().all(|digit| digit.is_ascii_digit());
    match number.parse() {
        Ok(number) if digits && number < size => Ok(number),
        _ if !digits => Err(format!("`{number}` is no number of {what}s")),
        _ => Err(not_there(what, number, size)),
    }
}

/// What is said of a number that a table hasn't.
fn not_there(what: &str, number: impl Display, size: usize) -> String {
    match size.checked_sub(1) {
        None => format!("there is no {what} {number}: the table has no {what}s"),
        Some(last) => format!("there is no {what} {number}: the table has 0 to {last}"),
    }
}

/// The number that has a name.
fn called(names: &BTreeMap<usize, String>, name: &str) -> Option<usize> {
    let found = names.iter().find(|(_, given)| *given == name);
    found.map(|(number, _)| *number)
}

/// What is said of a word that is none of the names wanted: whether it is one of the others,
/// or the nearest that is wanted.
fn not_called(
    (wanted, names): (&str, &BTreeMap<usize, String>),
    (other, others): (&str, &BTreeMap<usize, String>),
    word: &str,
) -> String {
    let nearest = names
        .values()
        .map(|name| (distance(name, word), name))
        .min();
    let hint = match nearest {
        _ if called(others, word).is_some() => format!(", but {other} has it"),
        Some((steps, name)) if steps <= 1 + word.len() / 4 => format!("; did you mean `{name}`?"),
        _ => String::new(),
    };
    format!("no {wanted} has this name{hint}")
}

/// How many letters must be altered, added or left out to make one word of another.
fn distance(one: &str, other: &str) -> usize {
    let other: Vec<char> = other.chars().collect();
    let mut row: Vec<usize> = (0..=other.len()).collect();
    for letter in one.chars() {
        let mut diagonal = row[0];
        row[0] += 1;
        for (place, &same) in other.iter().enumerate() {
            let altered = diagonal + usize::from(same != letter);
            diagonal = row[place + 1];
            row[place + 1] = altered.min(diagonal + 1).min(row[place] + 1);
        }
    }
    row[other.len()]
}

fn check_name(name: &str) -> Result<(), String> {
    if number(name).is_some() {
        return Err(format!("`{name}` is a number, so it can't be a name"));
    }
    let right = |byte: u8| byte.is_ascii_alphanumeric() || byte == b'-' || byte == b'_';
    if !name.bytes().all(right) {
        return Err(format!(
            "`{name}` is no name: it has letters, digits, `-` and `_` alone"
        ));
    }
    match name.len() {
        1..=NAME_LENGTH_MAX => Ok(()),
        _ => Err(format!(
            "`{name}` is no name: it is longer than {NAME_LENGTH_MAX} characters"
        )),
    }
}

impl Names {
    /// The names that a text gives, for tests.
    pub fn given(text: &str) -> Names {
        let mut names = Names::none();
        for line in text.lines() {
            let items = crate::text::sentences::items_of(line);
            names.add(&items, (DOMAINS_MAX, ENDPOINTS_MAX)).unwrap();
        }
        names
    }
}

#[cfg(test)]
mod tests {
    use super::*;
    use crate::text::sentences::items_of;
    use reference::example::TABLE_T;

    #[test]
    fn names_are_beside_the_numbers() {
        let names = Names::given("domain 0 link\nendpoint 1 drives");
        assert_eq!(names.domain(0), "domain 0 (link)");
        assert_eq!(names.domain(1), "domain 1");
        assert_eq!(names.domain_label(0), "0 link");
        assert_eq!(names.domain_row(&[0, 1]), "0 (link) 1");
        assert_eq!(names.domain_name(0), Some("link"));
        assert_eq!(names.endpoint_name(1), Some("drives"));
        assert_eq!(names.endpoint_name(0), None);
        assert_eq!(names.endpoint(1), "endpoint 1 (drives)");
        assert_eq!(names.endpoint(0), "endpoint 0");
        assert_eq!(names.endpoint_label(1), "1 drives");
        assert_eq!(names.lines(), "domain 0 link\nendpoint 1 drives\n");
        assert!(!names.is_empty());
    }

    #[test]
    fn without_names_numbers_are_alone() {
        let none = Names::none();
        assert!(none.is_empty());
        assert_eq!(none.domain(15), "domain 15");
        assert_eq!(none.endpoint(31), "endpoint 31");
        assert_eq!(none.domain_label(7), "7");
        assert_eq!(none.domain_row(&[0, 2]), "0 2");
        assert_eq!(none.endpoint_label(7), "7");
        assert_eq!(none.lines(), "");
    }

    #[test]
    fn names_are_put_beside_numbers_that_were_alone() {
        let names = Names::given("domain 1 loader\nendpoint 1 routes");
        let reported = "call 1 (domain 1 sends to endpoint 1): domain 11, endpoint 0; domain 1";
        let wanted = "call 1 (domain 1 (loader) sends to endpoint 1 (routes)): domain 11, \
                      endpoint 0; domain 1 (loader)";
        assert_eq!(names.beside(reported), wanted);
        assert_eq!(names.beside(wanted), wanted);
        assert_eq!(Names::none().beside(reported), reported);
        let looked_up = "endpoint 1 (routes, name 9) of each domain that there is";
        assert_eq!(names.beside(looked_up), looked_up);
    }

    /// What is wrong with the last of some lines.
    fn wrong(lines: &str, sizes: (usize, usize)) -> String {
        let (last, before) = lines.rsplit_once('\n').map_or((lines, ""), |(b, l)| (l, b));
        let mut names = Names::given(before);
        names.add(&items_of(last), sizes).unwrap_err().1
    }

    #[test]
    fn what_is_no_name_is_said() {
        let given = wrong("domain 0", (3, 2));
        assert_eq!(
            given,
            "a name is given as `domain 0 NAME`, in a line of its own"
        );
        assert!(wrong("endpoint 0 a b", (3, 2)).contains("`endpoint 0 NAME`"));
        assert!(wrong("domain 0 a.b", (3, 2)).starts_with("`a.b` is no name"));
        assert!(wrong("domain 0 \u{E9}", (3, 2)).contains("is no name"));
        assert_eq!(
            wrong("domain 0 7", (3, 2)),
            "`7` is a number, so it can't be a name"
        );
        assert!(wrong("domain 0 0x1F", (3, 2)).contains("is a number"));
        let longest = "n".repeat(24);
        Names::given(&format!("domain 0 {longest}"));
        let long = wrong(&format!("domain 0 {longest}n"), (3, 2));
        assert!(long.ends_with("is longer than 24 characters"), "{long}");
    }

    #[test]
    fn a_name_and_a_number_are_given_once() {
        let twice = wrong("domain 0 link\ndomain 0 loader", (3, 2));
        assert_eq!(twice, "domain 0 has a name already");
        let twice = wrong("domain 0 link\ndomain 2 link", (3, 2));
        assert_eq!(twice, "`link` is the name of domain 0 already");
        // A domain and its endpoint may be called the same.
        Names::given("domain 0 link\nendpoint 0 link");
    }

    #[test]
    fn every_wrong_line_is_a_mistake_in_its_column() {
        let mut namings = Namings::default();
        for (number, line) in ["domain 0 link", "domain 3 a", "endpoint 0 a.b", "table"]
            .iter()
            .enumerate()
        {
            assert_eq!(namings.take(number, &items_of(line)), number < 3);
        }
        let mistakes = namings.added_to(Names::none(), &TABLE_T).unwrap_err();
        let places: Vec<_> = mistakes.iter().map(|(line, at, _)| (*line, *at)).collect();
        assert_eq!(places, [(1, 8), (2, 12)]);
    }

    #[test]
    fn names_of_another_line_are_known() {
        let names = Names::given("domain 0 link\nendpoint 1 drives");
        let differ = |other: &str| Names::given(other).differ_from(&names);
        assert_eq!(differ("domain 0 link\ndomain 1 loader"), None);
        assert_eq!(Names::none().differ_from(&names), None);
        let other = differ("domain 0 loader").unwrap();
        assert_eq!(other, "domain 0 is `loader` in it, and `link`");
        let other = differ("endpoint 0 drives").unwrap();
        assert_eq!(other, "`drives` is endpoint 0 in it, and endpoint 1");
    }

    #[test]
    fn the_nearest_name_is_suggested() {
        let names = Names::given("domain 0 link\ndomain 1 drive-a\nendpoint 0 routes");
        assert_eq!(
            names.no_domain("drive-b"),
            "no domain has this name; did you mean `drive-a`?"
        );
        assert_eq!(
            names.no_domain("lnik"),
            "no domain has this name; did you mean `link`?"
        );
        assert_eq!(
            names.no_domain("routes"),
            "no domain has this name, but an endpoint has it"
        );
        assert_eq!(
            names.no_endpoint("link"),
            "no endpoint has this name, but a domain has it"
        );
        assert_eq!(names.no_endpoint("belts"), "no endpoint has this name");
        assert_eq!(
            (
                distance("", "abc"),
                distance("abc", "abd"),
                distance("ab", "ba")
            ),
            (3, 1, 2)
        );
    }

    #[test]
    fn only_what_there_is_has_a_name() {
        let beyond = wrong("domain 3 link", (3, 2));
        assert_eq!(beyond, "there is no domain 3: the table has 0 to 2");
        let none = wrong("endpoint 0 link", (3, 0));
        assert_eq!(none, "there is no endpoint 0: the table has no endpoints");
        assert_eq!(
            wrong("domain +1 link", (3, 2)),
            "`+1` is no number of domains"
        );
        assert!(wrong("domain 99999999999999999999 a", (3, 2)).contains("the table has 0 to 2"));
        assert_eq!(sizes(&TABLE_T), (3, 2));
        assert_eq!(sizes(&[]), (16, 32));
        assert_eq!(sizes(&[0x1000_1100]), (16, 32));
    }
}
