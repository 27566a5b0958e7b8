//! A table and a list in words, with a small diagram of the queues: what `balkwizu show`
//! prints.

use reference::cut;
use reference::entry::ANSWER_WORDS;
use reference::table::{
    capacity, domains, endpoint_words, endpoints, lost, owner, rights, waiting, SLOTS_PLACE,
};
use reference::words::content;

use crate::kernels::lent::Ran;
use crate::pictures::groups::groups_in_words;
use crate::pictures::potential::potential_in_words;
use crate::pictures::reach::{holders_of, reach_in_words};
use crate::text::explain::{call_on_table, counted, endpoint_in_words, letters, senders};
use crate::text::input::Input;
use crate::text::names::Names;
use crate::text::reasons::Replay;

/// An accepted table and a list in words, and what was left where it was run.
pub fn in_words(input: &Input, names: &Names, left: Option<&Ran>, calls: usize) -> String {
    let table = &input.table;
    let answers = left.map(|left| left.answers.as_slice());
    let after = left.map(|left| {
        let rights = rights_in_words(&left.table, names);
        let queues = queues_in_words(&left.table, names);
        let reach = reach_in_words(&left.holders, names);
        let reach = format!("Reached by a chain of rights in this table: {reach}\n");
        format!("\nAfter the list\n\n{rights}{reach}\n{queues}")
    });
    format!(
        "Table: {}, {}, {}\n\n{}{}Reached by a chain of rights in this table: {}\n{}\n{}\n{}{}",
        counted(domains(table), "domain"),
        counted(endpoints(table), "endpoint"),
        counted(table.len(), "word"),
        rights_in_words(table, names),
        groups_in_words(table, names),
        reach_in_words(&holders_of(table), names),
        potential_in_words(table, names),
        queues_in_words(table, names),
        calls_in_words(input, names, answers, calls),
        after.unwrap_or_default()
    )
}

/// The rights as a grid: a row for each holder, a column for each target.
fn rights_in_words(table: &[u32], names: &Names) -> String {
    let n = domains(table);
    let titles = titles(n, names);
    let width = titles[0].len();
    let mut text =
        String::from("Rights (S send, G grant, R remove, V revoke): who has them, on whom\n");
    let heads: Vec<String> = (0..n).map(|target| format!("{target:>5}")).collect();
    text += &format!("  {:>width$} {}\n", "", heads.concat());
    for (holder, title) in titles.iter().enumerate() {
        let cells: Vec<String> = (0..n)
            .map(|target| match rights(table, holder, target) {
                0 => format!("{:>5}", "."),
                set => format!("{:>5}", letters(set)),
            })
            .collect();
        text += &format!("  {title} {}\n", cells.concat());
    }
    text
}

/// What the rows of the grid begin with, all of one length.
fn titles(n: usize, names: &Names) -> Vec<String> {
    let label = |domain| {
        let space = if domain < 10 { " " } else { "" };
        format!("{space}{}", names.domain_label(domain))
    };
    let width = (0..n).map(|domain| label(domain).len()).max().unwrap_or(0);
    (0..n)
        .map(|domain| format!("domain {:<width$}", label(domain)))
        .collect()
}

/// Each endpoint with its queue: who owns it, who may send, what waits.
fn queues_in_words(table: &[u32], names: &Names) -> String {
    let mut text = String::from(
        "Queues: who may send ==> [free places -, then what waits, the oldest last] ==> owner\n",
    );
    if endpoints(table) == 0 {
        text += "  none\n";
    }
    for e in 0..endpoints(table) {
        text += &format!(
            "  {} ==> {} [{}] ==> {}; {} of {} waiting, {} lost\n",
            senders_in_words(table, e, names),
            endpoint_in_words(table, e, names),
            slots_in_words(table, e),
            names.domain(owner(table, e)),
            waiting(table, e),
            capacity(table, e),
            lost(table, e)
        );
    }
    text
}

/// The domains that may send to an endpoint.
fn senders_in_words(table: &[u32], endpoint: usize, names: &Names) -> String {
    let senders = senders(table, endpoint);
    match senders.is_empty() {
        true => "from nobody".to_string(),
        false => format!("from {}", names.domain_row(&senders)),
    }
}

/// A dash for each free place and then the messages that wait, the oldest last: it
/// is the next one that the owner on the right gets, as in the picture.
fn slots_in_words(table: &[u32], endpoint: usize) -> String {
    let slots = &endpoint_words(table, endpoint)[SLOTS_PLACE..];
    let waits = waiting(table, endpoint);
    let places: Vec<String> = (0..capacity(table, endpoint))
        .rev()
        .map(|place| match place {
            place if place < waits => content(slots[place]).to_string(),
            _ => "-".to_string(),
        })
        .collect();
    places.join(" ")
}

/// The calls, each with its answer where the list was run.
pub fn calls_in_words(
    input: &Input,
    names: &Names,
    answers: Option<&[u32]>,
    most: usize,
) -> String {
    let calls = cut(&input.list);
    let said = answers.map_or(vec![], |answers| {
        answers_in_words(input, names, answers, most)
    });
    let mut text = format!(
        "List: {} in {}\n",
        counted(calls.len(), "call"),
        counted(input.list.len(), "word")
    );
    for (number, call) in calls.iter().enumerate().take(most) {
        let words = reference::words::hex(&call.words());
        let asked = call_on_table(call, &input.table, names);
        text += &format!("  {number:>4}  {words:<17}  {asked}\n");
        if let Some(answer) = said.get(number) {
            text += &format!("  {:>4}  {:<17}  -> {answer}\n", "", "");
        }
    }
    if calls.len() > most {
        text += &format!("  and {} more\n", calls.len() - most);
    }
    text
}

/// What the first `most` calls of a list were answered, each in words. The table before each
/// is the reference's, which can't fault: the kernel whose answers are shown may.
pub fn answers_in_words(input: &Input, names: &Names, answers: &[u32], most: usize) -> Vec<String> {
    let calls = cut(&input.list);
    let mut replay = Replay::new(&input.table, &calls, names);
    let answers = answers.chunks_exact(ANSWER_WORDS).take(calls.len());
    let said = answers.take(most).map(|answer| replay.answered(answer));
    said.collect()
}

#[cfg(test)]
mod tests {
    use super::*;
    use crate::judging::variants::case_of;
    use crate::kernels::boundary::PROVED;
    use crate::kernels::lent::run_here;
    use reference::example::TABLE_T;

    #[test]
    fn the_worked_example_in_words() {
        let said = in_words(&Input::example(), &Names::none(), None, 2);
        assert!(said.starts_with("Table: 3 domains, 2 endpoints, 34 words\n"));
        assert!(said.contains("domain  1     S    .  SGR\n"), "{said}");
        assert!(said.contains("from 0 ==> endpoint 0 (name 17) [- -] ==> domain 1; 0 of 2 waiting"));
        assert!(said.contains("   0  20000100 F0000005  domain 0 sends 5 to endpoint 1\n"));
        assert!(said.ends_with("  and 7 more\n"), "{said}");
    }

    #[test]
    fn names_stand_beside_the_numbers() {
        let names = "domain 0 link\ndomain 2 drives\nendpoint 1 belts";
        let said = in_words(&Input::example(), &Names::given(names), None, 1);
        assert!(
            said.contains("\n                       0    1    2\n"),
            "{said}"
        );
        assert!(said.contains("\n  domain  0 link       .    S    .\n"));
        assert!(said.contains("\n  domain  1            S    .  SGR\n"));
        let reached = "domain 2 (drives) by 0 (link) 1 2 (drives)\n";
        assert!(said.contains(reached), "{said}");
        let queue = "from 1 ==> endpoint 1 (belts, name 18) [-] ==> domain 2 (drives); 0 of 1";
        assert!(said.contains(queue), "{said}");
        assert!(said.contains("  domain 0 (link) sends 5 to endpoint 1 (belts)\n"));
    }

    #[test]
    fn the_worked_example_with_its_answers() {
        let input = Input::example();
        let ran = run_here(&PROVED, &case_of(&input)).unwrap();
        let said = in_words(&input, &Names::none(), Some(&ran), usize::MAX);
        let answers: Vec<&str> = said
            .lines()
            .filter_map(|line| line.trim().strip_prefix("-> "))
            .collect();
        let wanted = [
            "refused with 17: domain 0 has no SEND on domain 2, the owner of endpoint 1; domain 1 \
             holds it; domain 0 never had it",
            "done",
            "done",
            "done; message 5 was pushed out and is lost",
            "message 6; 1 lost so far",
            "refused with 19: nothing waits in endpoint 1; call 4 (domain 2 receives from endpoint \
             1) received the last message",
            "refused with 10: a word of kind 15 stands alone",
            "S on domain 1, S on domain 2",
            "endpoint 1",
        ];
        assert_eq!(answers, wanted, "{said}");
        let after = said.split("After the list").nth(1).unwrap();
        assert!(after.contains("domain  0     .    S    S\n"), "{after}");
        let reach = "in this table: domain 0 by 0 1, domain 1 by 0 1, domain 2 by 0 1 2\n";
        assert!(after.contains(reach), "{after}");
        assert!(after.contains("0 of 1 waiting, 1 lost"), "{after}");
    }

    #[test]
    fn what_a_list_lost_is_reported_send_by_send() {
        let list = [0x2040_0000, 0xF000_0007].repeat(4);
        let mut input = Input {
            table: TABLE_T.to_vec(),
            list: [&list[..], &[0x5B40_0000]].concat(),
        };
        input.table[5] = 0x2000_0001;
        let ran = run_here(&PROVED, &case_of(&input)).unwrap();
        let said = in_words(&input, &Names::none(), Some(&ran), usize::MAX);
        let lost = said.matches("-> done; message 7 was pushed out and is lost\n");
        assert_eq!(lost.count(), 2, "{said}");
        assert!(said.contains("domain 45, which the table hasn't, asks for its rights\n"));
        assert!(said.contains("-> refused with 12: "), "{said}");
    }

    #[test]
    fn the_oldest_message_stands_next_to_the_owner() {
        let mut table = TABLE_T;
        table[11] = 0x4000_0103;
        table[12] = 0x5000_0002;
        (table[14], table[15]) = (0xF000_0007, 0xF000_0008);
        let said = queues_in_words(&table, &Names::none());
        assert!(
            said.contains("[- 8 7] ==> domain 1; 2 of 3 waiting, 0 lost"),
            "{said}"
        );
        let legend = said.lines().next().unwrap();
        assert!(legend.contains("the oldest last] ==> owner"), "{legend}");
    }
}
