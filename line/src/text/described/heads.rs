//! The lines before `calls`: domains, endpoints and rights.

use reference::table::{
    rights_place, DOMAINS_MAX, ENDPOINTS_MAX, HEADER, INFO, LOST, MESSAGE, NAME, RIGHTS, SLOTS,
    WAITING,
};
use reference::words::{word, CONTENT_MAX, EMPTY_SLOT};

use crate::text::calls::{number, set_of};
use crate::text::mistakes::Mistake;
use crate::text::names::Names;
use crate::text::sentences::{Item, Wrong};

/// What may follow an endpoint's name.
const FIELDS: [&str; 5] = ["owner", "capacity", "name", "lost", "waiting"];

/// Whether a word is a field of an endpoint.
pub fn is_endpoint_field(word: &str) -> bool {
    FIELDS.contains(&word)
}

/// A word of the text that is kept until all names are known.
#[derive(Clone)]
struct Kept {
    line: usize,
    column: usize,
    text: String,
}

/// An endpoint as its line describes it.
struct Endpoint {
    line: usize,
    owner: Kept,
    capacity: u32,
    name: u32,
    lost: u32,
    waiting: Vec<u32>,
}

/// Some holder's rights on some target.
struct Held {
    holder: Kept,
    target: Kept,
    set: u32,
}

/// What the lines before `calls` say.
#[derive(Default)]
pub struct Heads {
    names: Names,
    domains: usize,
    endpoints: Vec<Endpoint>,
    rights: Vec<Held>,
    table: Vec<u32>,
}

impl Heads {
    pub fn names(&self) -> &Names {
        &self.names
    }

    /// How many domains and endpoints there are.
    pub fn sizes(&self) -> (usize, usize) {
        (self.domains, self.endpoints.len())
    }

    /// The table, once [`Heads::resolve`] has found nothing wrong.
    pub fn table(&self) -> Vec<u32> {
        self.table.clone()
    }

    /// Takes in a line.
    pub fn read(&mut self, line: usize, items: &[Item]) -> Result<(), Wrong> {
        let (first, rest) = items.split_first().expect("a line with something in it");
        match first.text {
            "domain" => self.domain(first, rest),
            "endpoint" => self.endpoint(line, first, rest),
            "rights" => self.held(line, first, rest),
            other => Err((
                first.column,
                format!("a line starts with domain, endpoint, rights or calls, not `{other}`"),
            )),
        }
    }

    fn domain(&mut self, first: &Item, rest: &[Item]) -> Result<(), Wrong> {
        let [name] = rest else {
            return Err((
                first.column,
                "a domain is given as `domain NAME`".to_string(),
            ));
        };
        if self.domains == DOMAINS_MAX {
            return Err((
                first.column,
                "this is the 17th domain: a table has 16".to_string(),
            ));
        }
        let named = self.names.name_domain(self.domains, name.text);
        self.domains += 1;
        named.map_err(|why| (name.column, why))
    }

    fn endpoint(&mut self, line: usize, first: &Item, rest: &[Item]) -> Result<(), Wrong> {
        let Some((name, fields)) = rest.split_first() else {
            let shape = "an endpoint is given as `endpoint NAME owner DOMAIN capacity NUMBER`";
            return Err((first.column, shape.to_string()));
        };
        let number = self.endpoints.len();
        if number == ENDPOINTS_MAX {
            return Err((
                first.column,
                "this is the 33rd endpoint: a table has 32".to_string(),
            ));
        }
        let mut endpoint = Endpoint {
            line,
            owner: Kept::nothing(line, name.column),
            capacity: 0,
            name: number as u32 + 1,
            lost: 0,
            waiting: Vec::new(),
        };
        let named = self.names.name_endpoint(number, name.text);
        let read = endpoint.read(line, fields);
        self.endpoints.push(endpoint);
        named.map_err(|why| (name.column, why))?;
        read
    }

    fn held(&mut self, line: usize, first: &Item, rest: &[Item]) -> Result<(), Wrong> {
        let shape = "rights are given as `rights HOLDER on TARGET: SEND+GRANT`";
        let [holder, on, target, set] = rest else {
            return Err((first.column, shape.to_string()));
        };
        if on.text != "on" {
            return Err((
                on.column,
                format!("`on` is wanted here, not `{}`: {shape}", on.text),
            ));
        }
        let held = set_of(set.text);
        let held = held.ok_or_else(|| {
            let wanted = "a set is written as SEND+GRANT, of SEND, GRANT, REMOVE and REVOKE";
            (
                set.column,
                format!("`{}` is no set of rights: {wanted}", set.text),
            )
        })?;
        let mut target = Kept::new(line, target);
        target.text = target.text.trim_end_matches(':').to_string();
        let holder = Kept::new(line, holder);
        self.rights.push(Held {
            holder,
            target,
            set: held,
        });
        Ok(())
    }

    /// Makes the table, now that all names are known; returns what is wrong.
    pub fn resolve(&mut self) -> Vec<Mistake> {
        let mut mistakes = Vec::new();
        if self.domains == 0 {
            mistakes.push((1, 1, "no domain is given, as `domain link`".to_string()));
        }
        self.table = vec![header(self.sizes())];
        let (n, none) = (self.domains, word(RIGHTS, 0));
        self.table.extend(vec![none; n * n]);
        for held in &self.rights {
            let place = held.place(&self.names, &self.table);
            match place {
                Ok(place) if self.table[place] == none => {
                    self.table[place] = word(RIGHTS, held.set)
                }
                Ok(_) => mistakes.push(held.target.wrong("these rights are given already".into())),
                Err(mistake) => mistakes.push(mistake),
            }
        }
        for (number, endpoint) in self.endpoints.iter().enumerate() {
            mistakes.extend(self.repeated_name(number));
            match endpoint.words(&self.names, n) {
                Ok(words) => self.table.extend(words),
                Err(mistake) => mistakes.push(mistake),
            }
        }
        mistakes
    }

    /// What is wrong where an endpoint before has the same number as its name.
    fn repeated_name(&self, number: usize) -> Option<Mistake> {
        let (before, rest) = self.endpoints.split_at(number);
        let same = before.iter().position(|other| other.name == rest[0].name)?;
        let why = format!(
            "its name is {}, as that of {}: give it another with `name`",
            rest[0].name,
            self.names.endpoint(same)
        );
        Some((rest[0].line, 1, why))
    }
}

fn header((domains, endpoints): (usize, usize)) -> u32 {
    word(HEADER, (domains << 8 | endpoints) as u32)
}

impl Kept {
    fn new(line: usize, item: &Item) -> Kept {
        let (column, text) = (item.column, item.text.to_string());
        Kept { line, column, text }
    }

    fn nothing(line: usize, column: usize) -> Kept {
        Kept {
            line,
            column,
            text: String::new(),
        }
    }

    fn wrong(&self, why: String) -> Mistake {
        (self.line, self.column, why)
    }

    /// The domain that is named, of so many.
    fn domain(&self, names: &Names, n: usize) -> Result<usize, Mistake> {
        let said = match number(&self.text) {
            Some(number) if (number as usize) < n => return Ok(number as usize),
            Some(number) => format!("there is no domain {number}"),
            None => match names.domain_called(&self.text) {
                Some(domain) => return Ok(domain),
                None => format!("`{}`: {}", self.text, names.no_domain(&self.text)),
            },
        };
        Err(self.wrong(said))
    }
}

impl Held {
    fn place(&self, names: &Names, table: &[u32]) -> Result<usize, Mistake> {
        let n = reference::table::domains(table);
        let holder = self.holder.domain(names, n)?;
        Ok(rights_place(table, holder, self.target.domain(names, n)?))
    }
}

impl Endpoint {
    /// Takes in the fields after the name.
    fn read(&mut self, line: usize, fields: &[Item]) -> Result<(), Wrong> {
        let mut given: Vec<&str> = Vec::new();
        let mut rest = fields;
        while let Some((field, after)) = rest.split_first() {
            if given.contains(&field.text) {
                return Err((
                    field.column,
                    format!("`{}` is given a second time", field.text),
                ));
            }
            given.push(field.text);
            let taken = after
                .iter()
                .take_while(|item| !is_endpoint_field(item.text))
                .count();
            let (values, after) = after.split_at(taken);
            self.set(line, field, values)?;
            rest = after;
        }
        let end = fields.last().map_or(1, |item| item.column);
        match ["owner", "capacity"]
            .into_iter()
            .find(|wanted| !given.contains(wanted))
        {
            Some(wanted) => Err((end, format!("`{wanted}` is missing"))),
            None if self.waiting.len() > self.capacity as usize => {
                let why = format!("more messages wait than its capacity {}", self.capacity);
                Err((end, why))
            }
            None => Ok(()),
        }
    }

    /// Sets one field.
    fn set(&mut self, line: usize, field: &Item, values: &[Item]) -> Result<(), Wrong> {
        if field.text == "waiting" {
            let messages = values.iter().map(|value| number_in(value, 0, CONTENT_MAX));
            self.waiting = messages.collect::<Result<_, _>>()?;
            return Ok(());
        }
        let [value] = values else {
            let said = format!("`{}` has one value after it", field.text);
            return Err((field.column, said));
        };
        match field.text {
            "owner" => self.owner = Kept::new(line, value),
            "capacity" => self.capacity = number_in(value, 1, SLOTS as u32)?,
            "name" => self.name = number_in(value, 1, CONTENT_MAX)?,
            "lost" => self.lost = number_in(value, 0, CONTENT_MAX)?,
            other => {
                let known = FIELDS.join(", ");
                return Err((
                    field.column,
                    format!("an endpoint has no `{other}`: {known}"),
                ));
            }
        }
        Ok(())
    }

    /// The twelve words.
    fn words(&self, names: &Names, n: usize) -> Result<Vec<u32>, Mistake> {
        if self.owner.text.is_empty() {
            return Ok(Vec::new()); // what is wrong was said when its line was read
        }
        let owner = self.owner.domain(names, n)? as u32;
        let mut words = vec![
            word(NAME, self.name),
            word(INFO, owner << 8 | self.capacity),
            word(WAITING, self.waiting.len() as u32),
            word(LOST, self.lost),
        ];
        words.extend(self.waiting.iter().map(|&message| word(MESSAGE, message)));
        words.resize(reference::table::ENDPOINT_WORDS, EMPTY_SLOT);
        Ok(words)
    }
}

/// A number within its limits.
fn number_in(item: &Item, least: u32, most: u32) -> Result<u32, Wrong> {
    match number(item.text) {
        Some(number) if (least..=most).contains(&number) => Ok(number),
        _ => Err((
            item.column,
            format!("`{}` is no number from {least} to {most}", item.text),
        )),
    }
}
