//! `balkwizu repair`: a table that a worn card gives back damaged is made fit again, with a
//! report of what that means; and the other way round.

use std::ffi::OsString;
use std::path::Path;

use reference::grants_for;
use reference::repair::PAIR_WORDS;
use reference::table::{
    capacity, domains, endpoint_place, endpoint_words, endpoints, right, ENDPOINT_WORDS, LOST,
    LOST_PLACE, WAITING, WAITING_PLACE,
};
use reference::words::{content, from_bytes, kind, to_bytes};

use line::args::Options;
use line::kernels::boundary::repair;
use line::output::{may_write, may_write_both, say, write_file};
use line::pictures::chains::{actors, in_a_row};
use line::pictures::potential::could_hold;
use line::refused::{self, Refusal};
use line::text::explain::{
    counted, endpoint_in_words, meaning, place_in_words, rights_in_words, table_fault,
};
use line::text::given::{read_given, Given};
use line::text::hex;
use line::text::input::{read_at_most, read_once, shown, Input, INPUT_BYTES_MAX};
use line::text::names::Names;

pub const HELP: &str = "\
balkwizu repair IN [OUT] [--image | --text] [--changes FILE]
balkwizu repair IN [OUT] [--image | --text] --undo FILE

Makes a table that is refused with 4 or 5 fit again, without ever adding a
right, by the proved function: a broken rights word becomes an empty set, and an
endpoint with a broken waiting, lost or slot word gets an empty queue and lost
0. Prints every word that is altered and what that means for the line: which
rights calls can give back, whose calls, and which rights nobody can. Without
OUT nothing is written. A table whose word 0, length, names, owners or
capacities are wrong can't be repaired. IN may be a text as `balkwizu write`
takes it, OUT is an input of linerun.

  --image         IN and OUT are a table's bytes alone, as a card has them.
                  Without it they are inputs of linerun, and the list stays as
                  it is
  --text          OUT is a text too, with the names that IN gives, which an
                  input of linerun has not
  --changes FILE  write what was altered to FILE: two words for each, its place
                  and its old content
  --undo FILE     put the old words back that such a FILE has, if IN still has
                  the words that the repair wrote in their places

Exit status: 0 written or reported, also where there was nothing to repair; 1
refused, with what is wrong, and nothing written; 2 bad usage, or a file that
can't be read or written.
";

/// What the command is given.
struct Asked<'a> {
    from: &'a Path,
    to: Option<&'a Path>,
    form: Form,
    changes: Option<&'a Path>,
    undo: Option<&'a Path>,
}

/// What IN is, and OUT.
#[derive(Debug, Clone, Copy, PartialEq, Eq)]
enum Form {
    /// A table's bytes alone.
    Image,
    /// An input of linerun, or a text of one; OUT is an input.
    Input,
    /// The same, and OUT is a text.
    Text,
}

/// What IN holds, with the names that it gives; or the number and what is wrong.
type Held = Result<(Input, Names), Refusal>;

/// The command: whether IN can be repaired, or the repair undone.
pub fn command(line: &[OsString]) -> Result<bool, String> {
    let options = Options::parse(line, &["--changes", "--undo"], &["--image", "--text"])?;
    let asked = Asked::of(&options)?;
    let (mut input, names) = match asked.read()? {
        Ok(read) => read,
        Err(refusal) => {
            say!("{}", refused::in_words(&refusal));
            return Ok(false);
        }
    };
    let done = match asked.undo {
        None => asked.repaired(&mut input, &names)?,
        Some(list) => asked.undone(&mut input, &names, list)?,
    };
    match asked.to {
        None if done => say!("nothing is written: OUT is not given"),
        Some(to) if done && asked.form == Form::Input && !names.is_empty() => say!(
            "{} is an input of linerun, which has no names: --text writes a text with them",
            shown(to)
        ),
        _ => {}
    }
    Ok(done)
}

impl Asked<'_> {
    /// What a line asks for, where nothing is written over what is read, and nothing twice.
    fn of(options: &Options) -> Result<Asked<'_>, String> {
        let (from, to) = match options.files.as_slice() {
            [] | [_] => (options.file()?, None),
            _ => options.two_files().map(|(from, to)| (from, Some(to)))?,
        };
        let (changes, undo) = (options.path("--changes"), options.path("--undo"));
        let form = match (options.has("--image"), options.has("--text")) {
            (true, true) => return Err("--text is not for --image".to_string()),
            (true, false) => Form::Image,
            (false, true) => Form::Text,
            (false, false) => Form::Input,
        };
        match (changes, to) {
            (Some(_), _) if undo.is_some() => Err("--undo alters nothing to list"),
            (Some(_), None) => Err("--changes is not for a report without OUT"),
            (None, None) if form == Form::Text => Err("--text is not for a report without OUT"),
            _ => Ok(()),
        }?;
        let read: Vec<&Path> = [from].into_iter().chain(undo).collect();
        read_once(&read)?;
        to.map_or(Ok(()), |to| may_write("OUT", to, &read))?;
        changes.map_or(Ok(()), |list| may_write("--changes", list, &read))?;
        may_write_both(("OUT", to), ("--changes", changes))?;
        Ok(Asked {
            from,
            to,
            form,
            changes,
            undo,
        })
    }

    /// Reads IN; it may hold no words.
    fn read(&self) -> Result<Held, String> {
        if self.form != Form::Image {
            let Given { bytes, names, .. } = read_given(self.from)?;
            return Ok(Input::parse(&bytes).map(|input| (input, names)));
        }
        let bytes = read_at_most(self.from, INPUT_BYTES_MAX)?;
        let (table, list) = (from_bytes(&bytes), Vec::new());
        Ok(match bytes.len() % 4 {
            0 => Ok((Input { table, list }, Names::none())),
            left => {
                let left = counted(left, "byte");
                Err((33, format!("{left} left over after the last whole word")))
            }
        })
    }

    /// Writes OUT, if it is given.
    fn write(&self, input: &Input, names: &Names) -> Result<(), String> {
        let Some(to) = self.to else {
            return Ok(());
        };
        match self.form {
            Form::Image => write_file(to, &to_bytes(&input.table)),
            Form::Input => write_file(to, &input.to_bytes()),
            Form::Text => write_file(to, &(names.lines() + &hex::write(input))),
        }
    }

    fn repaired(&self, input: &mut Input, names: &Names) -> Result<bool, String> {
        let old = input.table.clone();
        let (code, changes) = repaired(&mut input.table);
        if code != 0 {
            let fault = table_fault(&old, names);
            let why = fault.map_or(String::new(), |(_, fault)| format!(": {fault}"));
            say!("refused with {code} ({}){why}", meaning(code));
            return Ok(false);
        }
        self.write(input, names)?;
        if let Some(file) = self.changes {
            write_file(file, &to_bytes(&changes))?;
        }
        let altered = match self.to {
            Some(_) => "altered",
            None => "would be altered",
        };
        say!("{}", in_words(&old, &input.table, &changes, altered, names));
        Ok(true)
    }

    fn undone(&self, input: &mut Input, names: &Names, list: &Path) -> Result<bool, String> {
        let bytes = read_at_most(list, INPUT_BYTES_MAX)?;
        let changes = from_bytes(&bytes);
        let whole = bytes.len() % (4 * PAIR_WORDS) == 0;
        let old = match whole {
            true => put_back(&input.table, &changes, names),
            false => Err("it ends within a change".to_string()),
        };
        match old {
            Ok(old) => input.table = old,
            Err(why) => {
                let list = shown(list);
                say!("{list} is no list of changes of this table: {why}; nothing is put back");
                return Ok(false);
            }
        }
        self.write(input, names)?;
        let count = counted(changes.len() / PAIR_WORDS, "old word");
        match self.to {
            Some(_) => say!("{count} put back"),
            None => say!("{count} can be put back"),
        }
        Ok(true)
    }
}

/// Repairs a table by the proved function: its code and the list of changes.
fn repaired(table: &mut [u32]) -> (u32, Vec<u32>) {
    let mut changes = vec![0; PAIR_WORDS * table.len()];
    let (code, altered) = repair(table, &mut changes);
    changes.truncate(PAIR_WORDS * altered as usize);
    (code, changes)
}

/// Returns the table whose repair made this table and this list of changes, or why there is
/// none: the repair of what it returns is tried.
fn put_back(table: &[u32], changes: &[u32], names: &Names) -> Result<Vec<u32>, String> {
    let mut old = table.to_vec();
    for pair in changes.chunks_exact(PAIR_WORDS) {
        let word = old.get_mut(pair[0] as usize);
        *word.ok_or_else(|| format!("the table has no word {}", pair[0]))? = pair[1];
    }
    let mut again = old.clone();
    let (code, altered) = repaired(&mut again);
    if code != 0 {
        return Err("the table with its words can't be repaired".to_string());
    }
    let places = changes
        .chunks_exact(PAIR_WORDS)
        .map(|pair| pair[0] as usize);
    let others = 0..table.len();
    if let Some(place) = places.chain(others).find(|&at| again[at] != table[at]) {
        let what = place_in_words(table, place, names);
        let (is, wrote) = (table[place], again[place]);
        return Err(format!(
            "{what}, is {is:08X}, and the repair wrote {wrote:08X}"
        ));
    }
    match altered == changes {
        true => Ok(old),
        false => Err("the repair alters other words".to_string()),
    }
}

/// What is altered, and what it means for the line.
fn in_words(old: &[u32], new: &[u32], changes: &[u32], altered: &str, names: &Names) -> String {
    if changes.is_empty() {
        return "nothing to repair: the table is sound".to_string();
    }
    let pairs = changes.chunks_exact(PAIR_WORDS);
    let places: Vec<usize> = pairs.map(|pair| pair[0] as usize).collect();
    let words = places.iter().map(|&place| {
        let (was, is) = (old[place], new[place]);
        let what = place_in_words(new, place, names);
        format!("  {what}: was {was:08X}, is {is:08X}\n")
    });
    let rights = rights_gone(new, &places, names);
    let means = rights.chain(queues_emptied(old, new, &places, names));
    let means = means.map(|one| format!("\n  {one}"));
    format!(
        "{} {altered}\n{}For the line this means{}",
        counted(places.len(), "word"),
        words.collect::<String>(),
        means.collect::<String>()
    )
}

fn rights_gone<'a>(
    table: &'a [u32],
    places: &'a [usize],
    names: &'a Names,
) -> impl Iterator<Item = String> + 'a {
    let (n, could) = (domains(table), could_hold(table));
    let rights = places.iter().filter(move |&&place| place <= n * n);
    rights.map(move |place| {
        let (holder, target) = ((place - 1) / n, (place - 1) % n);
        format!(
            "{} has no right on {} any more, whatever it had: {}",
            names.domain(holder),
            names.domain(target),
            given_back(table, (holder, target), could[place - 1], names)
        )
    })
}

/// Which rights of a holder on a target calls can give back, whose calls, and which nobody
/// can: those that are no potential rights of the repaired table.
fn given_back(
    table: &[u32],
    (holder, target): (usize, usize),
    could: u32,
    names: &Names,
) -> String {
    let gone = right::ALL & !could;
    let everybody = !(!0 << domains(table));
    let by = grants_for(table, everybody, holder, target, could).filter(|_| could != 0);
    let back = by.map(|list| {
        let by = actors(&list).into_iter().map(|actor| names.domain(actor));
        format!(
            "calls of {} can give back {}",
            in_a_row(by.collect()),
            rights_in_words(could)
        )
    });
    let never = match gone {
        0 => None,
        right::ALL => Some("nobody can give back any, only another table can".to_string()),
        gone => Some(format!(
            "nobody can give back {}, only another table can",
            rights_in_words(gone)
        )),
    };
    let both: Vec<String> = back.into_iter().chain(never).collect();
    both.join("; ")
}

fn queues_emptied<'a>(
    old: &'a [u32],
    new: &'a [u32],
    places: &'a [usize],
    names: &'a Names,
) -> impl Iterator<Item = String> + 'a {
    let emptied = (0..endpoints(new)).filter(move |&e| {
        let start = endpoint_place(new, e);
        let own = start..start + ENDPOINT_WORDS;
        places.iter().any(|place| own.contains(place))
    });
    emptied.map(move |e| {
        format!(
            "the queue of {} is empty and its lost count 0; its words said {}",
            endpoint_in_words(new, e, names),
            queue_before(old, e)
        )
    })
}

/// What the old words of an endpoint say of its queue. That messages are gone, and how many,
/// nobody can know of a queue with a broken word.
fn queue_before(old: &[u32], endpoint: usize) -> String {
    let words = endpoint_words(old, endpoint);
    let (waits, lost) = (words[WAITING_PLACE], words[LOST_PLACE]);
    let waits = match kind(waits) == WAITING && content(waits) as usize <= capacity(old, endpoint) {
        true => format!("{} waiting", content(waits)),
        false => "nothing sound of what waited".to_string(),
    };
    let lost = match kind(lost) == LOST {
        true => format!("{} lost", content(lost)),
        false => "nothing sound of what was lost".to_string(),
    };
    format!("{waits}, {lost}")
}

#[cfg(test)]
mod tests {
    use super::*;
    use reference::example::TABLE_T;

    fn damaged(damage: &[(usize, u32)]) -> Vec<u32> {
        let mut table = TABLE_T.to_vec();
        for &(place, word) in damage {
            table[place] = word;
        }
        table
    }

    fn reported(damage: &[(usize, u32)]) -> String {
        let old = damaged(damage);
        let mut table = old.clone();
        let (code, changes) = repaired(&mut table);
        assert_eq!(code, 0);
        in_words(&old, &table, &changes, "altered", &Names::none())
    }

    #[test]
    fn what_was_altered_is_reported_with_what_it_means() {
        let report = reported(&[
            (6, 0x2000_0017),
            (24, 0x5000_0001),
            (25, 0x6000_0003),
            (26, 0x7000_0005),
        ]);
        let lines: Vec<&str> = report.lines().collect();
        assert_eq!(lines[0], "4 words altered");
        assert!(lines[1].starts_with("  word 6, the rights of domain 1 on domain 2: was 20000017"));
        assert!(lines[2].contains("endpoint 1's waiting count: was 50000001, is 50000000"));
        assert!(lines[4].contains("endpoint 1's message slot 0: was 70000005, is F0000000"));
        assert_eq!(
            lines[6],
            "  domain 1 has no right on domain 2 any more, whatever it had: nobody can give back \
             any, only another table can"
        );
        assert!(lines[7].ends_with("its words said 1 waiting, 3 lost"));
        assert_eq!(reported(&[]), "nothing to repair: the table is sound");
    }

    /// What domain 0 had on domain 2 is gone, and domain 1 can give it what it has on 2.
    #[test]
    fn which_rights_come_back_is_reported_with_whose_calls_and_which_never_do() {
        let broken = reported(&[(3, 0x2000_0010)]);
        let some =
            "  domain 0 has no right on domain 2 any more, whatever it had: calls of domain \
                    1 can give back SEND+GRANT+REMOVE; nobody can give back REVOKE, only another \
                    table can";
        assert!(broken.ends_with(some), "{broken}");
        let broken = reported(&[(2, 0x2000_0010)]);
        assert!(broken.ends_with(": nobody can give back any, only another table can"));
    }

    #[test]
    fn what_waited_is_not_guessed() {
        let report = reported(&[(24, 0x5000_0009)]);
        assert!(report.ends_with("its words said nothing sound of what waited, 0 lost"));
    }

    #[test]
    fn old_words_are_put_back_over_those_that_the_repair_wrote_alone() {
        let old = damaged(&[(3, 0x2000_0010), (26, 0x7000_0005)]);
        let mut table = old.clone();
        let (_, changes) = repaired(&mut table);
        let back = |table: &[u32], changes: &[u32]| put_back(table, changes, &Names::none());
        assert_eq!(back(&table, &changes), Ok(old));
        let with = |place: usize, word| {
            let mut other = table.clone();
            other[place] = word;
            back(&other, &changes).unwrap_err()
        };
        let granted = "word 3, the rights of domain 0 on domain 2, is 20000001, and the repair \
                       wrote 20000000";
        assert_eq!(with(3, 0x2000_0001), granted);
        assert!(with(25, 0x6000_0002).starts_with("word 25, endpoint 1's lost count, is 60000002"));
        assert_eq!(
            back(&table, &[34, 0]).unwrap_err(),
            "the table has no word 34"
        );
        let sound = [2, 0x2000_0001];
        assert_eq!(
            back(&table, &sound).unwrap_err(),
            "the repair alters other words"
        );
        let header = [0, 0];
        let why = "the table with its words can't be repaired";
        assert_eq!(back(&table, &header).unwrap_err(), why);
    }
}
