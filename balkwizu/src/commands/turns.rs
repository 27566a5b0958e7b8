//! `balkwizu turns`: handing in and turns as text, played on the proved layer and printed in
//! words.

use std::ffi::OsString;
use std::path::{Path, PathBuf};

use reference::table::domains;
use reference::turn_words::length;
use reference::turns::PENDING_WORDS;
use reference::{cut, Call};

use line::args::Options;
use line::judging::turning::{
    difference, pending_calls, pending_words, separate_event, served, Served, Waits,
};
use line::kernels::layer::{event_here, Event, Layer, Left, Lent, PROVED_LAYER};
use line::output::{self, say};
use line::refused;
use line::text::explain::{answer_on_table, call_in_words, counted, meaning};
use line::text::given::read_given;
use line::text::input::{read_text, shown, Input};
use line::text::mistakes::reported;
use line::text::names::Names;
use line::text::turns::{self, Happens, Table};

pub const HELP: &str = "\
balkwizu turns FILE

Plays what domains hand in and the turns that serve it, on the proved layer of
turns, and prints each event in words: who is served, how many turns after its
call was handed in, the answer, and each refusal. At the end it prints what is
still pending, where the next turn starts, and the longest waits. Every event is
compared with the reference, and the calls served with a run of them as one
list. `-` is standard input. A text looks like this:

  table four.txt                     # a file, as every command takes it
  hand in link sends 65 to belts     # a sentence, or a call by its fields:
  hand in link send caller link endpoint routes message 66
  hand in link sends 67 to routes    8 times
  hand in chutes words F0000005      # any words
  turn
  turns 3                            # or: turn 3 times

The file is looked for beside the text; its list isn't used. The table may also
be in the text itself, before the first event, as `balkwizu help write`
describes it: in words, or as hexadecimal words after `table`. Domains and
endpoints are given by name or number. Lines as `domain 0 link` and `endpoint 1
drives` give names, beside those that the table has. A text has 100,000 turns
and calls at most, 10,000 in a line.

A wait is counted in turns, from handing in to the turn that serves the call,
that one included. With n domains the k-th pending call of a domain waits k
times n turns at most, so its oldest one n.

Exit status: 0 played, also where something was refused; 1 the table is refused,
or something differs from the reference; 2 bad usage, a file that can't be read,
or mistakes in the text, each reported by its line and column.
";

/// The command: whether all was played and nothing differs.
pub fn command(line: &[OsString]) -> Result<bool, String> {
    let options = Options::parse(line, &[], &[])?;
    let file = options.file()?;
    let text = read_text(
        file,
        "a table and what happens, one event a line, are wanted",
    )?;
    let in_file = |why| format!("{}: {why}", shown(file));
    let script = turns::read(&text).map_err(in_file)?;
    let (given, holds_table) = match &script.table {
        Table::Here(given) => (given.clone(), file.to_path_buf()),
        Table::File(name) => {
            let path = beside(file, name);
            (read_given(&path)?, path)
        }
    };
    let table = match given.accepted() {
        Ok(Input { table, .. }) => table,
        Err(refusal) => {
            say!("table {}", refused::in_words(&refusal));
            if holds_table != file {
                refused::report_mending(&holds_table, &refusal);
            }
            return Ok(false);
        }
    };
    let names = script.namings.added_to(given.names, &table);
    let names = names.map_err(|mistakes| in_file(reported(mistakes)))?;
    let events = script.events(&names).map_err(in_file)?;
    let (printed, same) = played(&PROVED_LAYER, &table, &names, &events);
    output::write(printed.as_bytes());
    Ok(same)
}

/// A file that is looked for beside another.
fn beside(text: &Path, name: &str) -> PathBuf {
    text.parent().unwrap_or(Path::new("")).join(name)
}

/// What is played so far.
struct Play<'a> {
    names: &'a Names,
    lent: Lent,
    turns: usize,
    served: Served,
    waits: Waits,
    printed: String,
    /// What is still to be printed of the last events, which the next may repeat.
    last: Option<Said>,
}

/// What is printed of an event that happened, or of the same again and again.
struct Said {
    /// The first and the last line of the text.
    lines: (usize, usize),
    times: usize,
    what: What,
}

/// An event in words.
enum What {
    /// The first and the last of turns that found nothing pending.
    Idle(usize, usize),
    /// A turn that served a call, or was refused.
    Turn(String),
    /// Something handed in: who, what was handed in or refused, and what came of it.
    HandIn(String, String, String),
}

impl Said {
    /// Takes in the next event where it is the same.
    fn repeated(&mut self, next: &Said) -> bool {
        match (&mut self.what, &next.what) {
            (What::Idle(_, last), What::Idle(turn, _)) => *last = *turn,
            (What::HandIn(who, what, came), What::HandIn(other, same, now))
                if who == other && what == same =>
            {
                came.clone_from(now);
            }
            _ => return false,
        }
        self.lines.1 = next.lines.1;
        self.times += 1;
        true
    }

    fn in_words(&self) -> String {
        let lines = match self.lines {
            (first, last) if first == last => format!("line {first}"),
            (first, last) => format!("lines {first} to {last}"),
        };
        let times = match self.times {
            1 => String::new(),
            times => format!(" {times} times"),
        };
        match &self.what {
            What::Idle(first, last) if first == last => {
                format!("{lines}: turn {first} is idle: nothing is pending\n")
            }
            What::Idle(first, last) => {
                format!("{lines}: turns {first} to {last} are idle: nothing is pending\n")
            }
            What::Turn(what) => format!("{lines}: {what}\n"),
            What::HandIn(who, what, came) => format!("{lines}: {who}{times}{what}{came}\n"),
        }
    }
}

/// Plays events on a table: what is printed, and whether nothing differs.
fn played(layer: &Layer, table: &[u32], names: &Names, events: &[Happens]) -> (String, bool) {
    let mut play = match Play::begin(layer, table, names) {
        Ok(play) => play,
        Err(why) => return (format!("DIFFERENCE at the beginning:\n  {why}\n"), false),
    };
    let each = events
        .iter()
        .flat_map(|happens| (0..happens.times).map(move |_| happens));
    for Happens { line, event, .. } in each {
        if let Err(why) = play.event(layer, *line, event) {
            play.print_last();
            let printed = play.printed;
            return (
                format!("{printed}DIFFERENCE at line {line}:\n  {why}\n"),
                false,
            );
        }
    }
    play.print_last();
    let ended = play.ended();
    let same = play.served.as_one_list();
    let end = match &same {
        Ok(()) => format!(
            "{} served; as one list they get the same answers and leave the same words.\n",
            counted(play.served.calls(), "call")
        ),
        Err(why) => format!("DIFFERENCE: {why}\n"),
    };
    (play.printed + &ended + &end, same.is_ok())
}

impl<'a> Play<'a> {
    /// A state with nothing pending. The words that the layer begins on are any. An error
    /// where something differs.
    fn begin(layer: &Layer, table: &[u32], names: &'a Names) -> Result<Play<'a>, String> {
        let n = domains(table);
        let lent = Lent {
            table: table.to_vec(),
            state: vec![u32::MAX; length(n)],
            holders: vec![u32::MAX; n],
            answer: vec![0; 3],
        };
        let left = event_here(layer, &lent, &Event::Begin)?;
        let wanted = separate_event(&lent, &Event::Begin)?;
        difference(&lent, &left, &wanted).map_or(Ok(()), Err)?;
        Ok(Play {
            names,
            lent: left.words,
            turns: 0,
            served: Served::begin(table),
            waits: Waits::new(n),
            printed: format!(
                "{}: nothing is pending, and the first turn starts at {}\n",
                counted(n, "domain"),
                names.domain(0),
            ),
            last: None,
        })
    }

    /// Plays one event; an error where something differs.
    fn event(&mut self, layer: &Layer, line: usize, event: &Event) -> Result<(), String> {
        let left = event_here(layer, &self.lent, event)?;
        let wanted = separate_event(&self.lent, event)?;
        difference(&self.lent, &left, &wanted).map_or(Ok(()), Err)?;
        let what = match event {
            Event::HandIn { domain, words } => handed_in(&left, *domain, words, self.names),
            _ => self.turned(&left),
        };
        self.say(line, what);
        if *event == Event::Turn && left.code == 0 {
            self.served.note(&self.lent, &left);
            self.waits.turned(&self.lent, &left)?;
        }
        self.lent = left.words;
        Ok(())
    }

    /// Says what happened, with the event before where it is the same.
    fn say(&mut self, line: usize, what: What) {
        let next = Said {
            lines: (line, line),
            times: 1,
            what,
        };
        if !self.last.as_mut().is_some_and(|last| last.repeated(&next)) {
            self.print_last();
            self.last = Some(next);
        }
    }

    fn print_last(&mut self) {
        self.printed += &self
            .last
            .take()
            .map_or(String::new(), |said| said.in_words());
    }

    /// What is said of a turn.
    fn turned(&mut self, left: &Left) -> What {
        self.turns += 1;
        let turn = format!("turn {}", self.turns);
        let code = left.code;
        if code != 0 {
            return What::Turn(format!("{turn} is refused with {code} ({})", meaning(code)));
        }
        let Some((domain, call)) = served(&self.lent, left) else {
            return What::Idle(self.turns, self.turns);
        };
        What::Turn(format!(
            "{turn} serves {} after a wait of {} ({})\n    {}: {}",
            self.names.domain(domain),
            counted(self.waits.of_served(domain), "turn"),
            pending_in_short(&self.lent, self.names),
            call_in_words(&call, self.names),
            answer_on_table(&self.lent.table, &call, &left.words.answer, self.names)
        ))
    }

    /// What is printed at the end.
    fn ended(&self) -> String {
        let n = domains(&self.lent.table);
        let pending = (0..n).filter_map(|domain| {
            let calls = pending_calls(&self.lent.state, domain);
            let listed = calls_in_words(&calls, self.names);
            let pending = || format!("  pending of {}: {listed}\n", self.names.domain(domain));
            (!calls.is_empty()).then(pending)
        });
        let pending: String = pending.collect();
        let pending = match pending.as_str() {
            "" => "  nothing is pending\n",
            some => some,
        };
        let next = match self.lent.state[0] as usize {
            place if place < n => self.names.domain(place),
            _ => format!("{}, after the last", self.names.domain(0)),
        };
        format!(
            "At the end, after {}:\n{pending}  the next turn starts at {next}\n{}",
            counted(self.turns, "turn"),
            self.longest_waits()
        )
    }

    /// The longest waits of each domain, in turns.
    fn longest_waits(&self) -> String {
        let n = self.waits.longest.len();
        let mut table = format!(
            "  the longest waits in turns: of a call since it was handed in ({} at most), and of \
             a domain's\n  oldest call since it is the oldest ({n} at most)\n",
            PENDING_WORDS * n
        );
        let longest = self.waits.longest_of_all.iter().zip(&self.waits.longest);
        for (domain, (any, oldest)) in longest.enumerate() {
            table += &format!("    {}: {any}, {oldest}\n", self.names.domain(domain));
        }
        table
    }
}

/// What is said of words that were handed in.
fn handed_in(left: &Left, domain: u32, words: &[u32], names: &Names) -> What {
    let who = names.domain(domain as usize);
    let what = match words {
        [] => "no word".to_string(),
        _ => calls_in_words(&cut(words), names),
    };
    let code = left.code;
    if code != 0 {
        let why = format!(" with {code} ({}), handing in: {what}", meaning(code));
        return What::HandIn(format!("{who} is refused"), why, String::new());
    }
    let pending = pending_words(&left.words.state, domain as usize).len();
    let came = format!(" ({pending} of {PENDING_WORDS} words pending)");
    What::HandIn(format!("{who} hands in"), format!(": {what}"), came)
}

fn calls_in_words(calls: &[Call], names: &Names) -> String {
    let calls: Vec<String> = calls
        .iter()
        .map(|call| call_in_words(call, names))
        .collect();
    calls.join("; ")
}

/// How many calls are pending of whom.
fn pending_in_short(lent: &Lent, names: &Names) -> String {
    let each = (0..domains(&lent.table)).filter_map(|domain| {
        let calls = pending_calls(&lent.state, domain).len();
        (calls > 0).then(|| format!("{calls} of {}", names.domain(domain)))
    });
    let each: Vec<String> = each.collect();
    format!("pending calls: {}", each.join(", "))
}

#[cfg(test)]
mod tests {
    use super::*;
    use reference::example::TABLE_T;

    const TEXT: &str = "\
table T
hand in 1 grant caller 1 target 2 recipient 0 rights 1
hand in 0 send caller 0 endpoint 1 message 5
hand in 0 send caller 0 endpoint 1 message 6
hand in 0 my-rights caller 1
hand in 3 words
turns 3
turn
hand in 2 receive caller 2 endpoint 1
";

    fn events(text: &str) -> Vec<Happens> {
        let script = turns::read(text).unwrap();
        script.events(&Names::none()).unwrap()
    }

    fn printed(text: &str) -> String {
        let (printed, same) = played(&PROVED_LAYER, &TABLE_T, &Names::none(), &events(text));
        assert!(same, "{printed}");
        printed
    }

    #[test]
    fn each_event_and_the_end_are_printed() {
        let printed = printed(TEXT);
        let lines: Vec<&str> = printed.lines().collect();
        for (at, line) in [
            (
                1,
                "line 2: domain 1 hands in: domain 1 grants domain 0 SEND on domain 2 (1 of 16 \
                 words pending)",
            ),
            (
                6,
                "line 7: turn 1 serves domain 0 after a wait of 1 turn (pending calls: 2 of \
                 domain 0, 1 of domain 1)",
            ),
            (11, "    domain 0 sends 6 to endpoint 1: done"),
            (12, "line 8: turn 4 is idle: nothing is pending"),
            (14, "At the end, after 4 turns:"),
            (
                15,
                "  pending of domain 2: domain 2 receives from endpoint 1",
            ),
            (16, "  the next turn starts at domain 1"),
            (19, "    domain 0: 3, 2"),
            (20, "    domain 1: 2, 2"),
            (21, "    domain 2: 0, 0"),
        ] {
            assert_eq!(lines[at], line, "{printed}");
        }
        assert!(lines[4].starts_with("line 5: domain 0 is refused with 36 ("));
        assert!(lines[5].ends_with("), handing in: no word"), "{printed}");
        assert!(lines[7].starts_with("    domain 0 sends 5 to endpoint 1: refused with 17"));
        assert!(lines[8].starts_with("line 7: turn 2 serves domain 1 after a wait of 2 turns ("));
        // Handed in before the first turn, though it was the oldest only since then.
        assert!(lines[10].starts_with("line 7: turn 3 serves domain 0 after a wait of 3 turns ("));
        assert!(lines[22].starts_with("3 calls served; as one list"));
    }

    #[test]
    fn bursts_and_idle_turns_are_folded() {
        let text = "\
table T
hand in 1 send caller 1 endpoint 1 message 5  10 times
hand in 1 send caller 1 endpoint 1 message 5
turns 8
turn 3 times
turn
";
        let printed = printed(text);
        let lines: Vec<&str> = printed.lines().collect();
        assert_eq!(
            lines[1],
            "line 2: domain 1 hands in 8 times: domain 1 sends 5 to endpoint 1 (16 of 16 words \
             pending)"
        );
        assert!(lines[2].starts_with("lines 2 to 3: domain 1 is refused 3 times with 37 ("));
        let idle = "lines 5 to 6: turns 9 to 12 are idle: nothing is pending";
        assert_eq!(lines[19], idle, "{printed}");
    }

    /// Eight sends by one domain before the first turn: the last waits eight turns, and more
    /// where others are served between them.
    #[test]
    fn the_waits_of_eight_sends_by_one_domain_are_printed() {
        let send = "hand in 1 send caller 1 endpoint 1 message 5  8 times\n";
        let alone = printed(&format!("table T\n{send}turns 8\n"));
        assert!(
            alone.contains("turn 8 serves domain 1 after a wait of 8 turns ("),
            "{alone}"
        );
        assert!(alone.contains("    domain 1: 8, 1\n"), "{alone}");
        let ask = |d: u32| format!("hand in {d} my-rights caller {d} 16 times\n");
        let among = printed(&format!("table T\n{send}{}{}turns 24\n", ask(0), ask(2)));
        assert!(among.contains("    domain 1: 23, 3\n"), "{among}");
    }

    #[test]
    fn names_are_beside_the_numbers() {
        let names = Names::given("domain 0 link\ndomain 2 drives\nendpoint 1 belts");
        let (printed, _) = played(&PROVED_LAYER, &TABLE_T, &names, &events(TEXT));
        for part in [
            "the first turn starts at domain 0 (link)",
            "line 3: domain 0 (link) hands in: domain 0 (link) sends 5 to endpoint 1 (belts)",
            "turn 1 serves domain 0 (link) after a wait of 1 turn (pending calls: 2 of domain 0 (li",
            "  pending of domain 2 (drives): domain 2 (drives) receives from endpoint 1 (belts)",
            "    domain 0 (link): 3, 2\n    domain 1: 2, 2\n",
        ] {
            assert!(printed.contains(part), "{part}: {printed}");
        }
    }

    #[test]
    fn a_message_that_a_send_pushed_out_is_printed() {
        let send = "hand in 1 send caller 1 endpoint 1 message 5\n";
        let text = format!("table T\n{}turns 2\n", send.repeat(2));
        let (printed, _) = played(&PROVED_LAYER, &TABLE_T, &Names::none(), &events(&text));
        assert!(printed.contains(": done\n"), "{printed}");
        assert!(printed.contains(": done; message 5 was pushed out and is lost\n"));
    }

    #[test]
    fn what_differs_is_reported_with_its_line() {
        let wrong = Layer {
            turn: |table, state, holders, answer| {
                let answered = (PROVED_LAYER.turn)(table, state, holders, answer);
                state[0] %= 1;
                answered
            },
            ..PROVED_LAYER
        };
        let (printed, same) = played(&wrong, &TABLE_T, &Names::none(), &events(TEXT));
        assert!(!same);
        let end = printed.lines().rev().nth(1).unwrap();
        assert_eq!(end, "DIFFERENCE at line 7:");
    }

    #[test]
    fn the_place_after_the_last_domain_is_printed_as_the_first() {
        let text = "table T\nhand in 2 my-rights caller 2\nturn";
        let (printed, _) = played(&PROVED_LAYER, &TABLE_T, &Names::none(), &events(text));
        assert!(printed.contains("  nothing is pending\n  the next turn starts at domain 0, after"));
    }
}
