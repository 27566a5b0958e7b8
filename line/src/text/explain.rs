//! The kernel's words in plain ones: what a number means, what a call asks for,
//! what a word of a table is, and what is wrong with a refused one.

use std::fmt::Display;

use reference::calls::{
    Call, GRANT, LOOK_UP, MY_ENDPOINTS, MY_RIGHTS, RECEIVE, REMOVE, REVOKE, SEND, STRAY,
};
use reference::check_table;
use reference::table::{
    capacity, domains, endpoint_place, endpoint_words, endpoints, header_is_right, length, name,
    owner, right, rights, waiting, ENDPOINT_WORDS, INFO, INFO_PLACE, LOST, LOST_PLACE, MESSAGE,
    NAME, NAME_PLACE, RIGHTS, SLOTS, SLOTS_PLACE, WAITING, WAITING_PLACE,
};
use reference::words::{bits, content, kind, EMPTY_SLOT};

use crate::text::names::Names;

/// A number of things, as `1 call` or `3 calls`.
pub fn counted<N: Display + PartialEq + From<u8>>(number: N, one: &str) -> String {
    let many = if number == N::from(1) { "" } else { "s" };
    format!("{number} {one}{many}")
}

/// What a number of the kernel means.
pub fn meaning(code: u32) -> &'static str {
    match code {
        0 => "done",
        1 => "the list is above 4,096 words",
        2 => "the table is empty, or word 0 breaks its layout",
        3 => "the table's length is not the one that word 0 asks for",
        4 => "a rights word breaks its layout",
        5 => "an endpoint word breaks its layout, or a name repeats",
        6 => "the answer space is under three words a call, or the holders' not one word a domain",
        7 => "the input is cut short, has bytes left over, or its first word is above 641",
        10 => "a word of kind 15 stands alone",
        11 => "the kind is unknown",
        12 => "the caller is no domain of the table",
        13 => "an unused field is not zero",
        14 => "the second word is missing",
        15 => "no endpoint has the name",
        16 => "the table has no such endpoint",
        17 => "the caller has no SEND on the endpoint's owner",
        18 => "the caller does not own the endpoint",
        19 => "nothing waits",
        20 => "a domain named is not in the table",
        21 => "the rights named cannot be asked for",
        22 => "the caller lacks a right that the call needs",
        23 => "the recipient or holder is another, and the caller has no right on it",
        30 => "a call is none, or has a field that exceeds its bits",
        31 => "the words would pass 4,096 or the space",
        32 => "the number is no domain, or words are lent that no table's holders are",
        33 => "word 0, the length, a name, an owner or a capacity is wrong, or a name repeats",
        34 => "the list of changes is too short",
        35 => "the number is no domain of the table",
        36 => "the words are not exactly one call, no stray, of that domain",
        37 => "the domain's pending words would pass 16",
        99 => "words are lent that are not as many as they must be",
        _ => NO_CODE,
    }
}

const NO_CODE: &str = "not a number of the kernel";

/// Whether a number is one that means something.
pub fn is_code(code: u32) -> bool {
    meaning(code) != NO_CODE
}

/// The domains that may send to an endpoint: those with SEND on its owner.
pub fn senders(table: &[u32], endpoint: usize) -> Vec<usize> {
    let to = owner(table, endpoint);
    (0..domains(table))
        .filter(|&from| rights(table, from, to) & right::SEND != 0)
        .collect()
}

/// The rights, each with its letter and its name.
pub const NAMED_RIGHTS: [(u32, &str, &str); 4] = [
    (right::SEND, "S", "SEND"),
    (right::GRANT, "G", "GRANT"),
    (right::REMOVE, "R", "REMOVE"),
    (right::REVOKE, "V", "REVOKE"),
];

/// A set of rights in letters: S for SEND, G for GRANT, R for REMOVE, V for REVOKE.
pub fn letters(set: u32) -> String {
    let held = NAMED_RIGHTS.iter().filter(|(bit, ..)| set & bit != 0);
    held.map(|(_, letter, _)| *letter).collect()
}

/// A set of rights in words, as `SEND+GRANT`.
pub fn rights_in_words(set: u32) -> String {
    if set == 0 || set > right::ALL {
        return format!("the rights {set}");
    }
    let held = NAMED_RIGHTS.iter().filter(|(bit, ..)| set & bit != 0);
    held.map(|(.., name)| *name).collect::<Vec<_>>().join("+")
}

/// What a call asks for.
pub fn call_in_words(call: &Call, names: &Names) -> String {
    asked_by(&names.domain(caller(call)), call, names)
}

/// What a call asks for of an accepted table, which may not have its caller.
pub fn call_on_table(call: &Call, table: &[u32], names: &Names) -> String {
    let who = match caller(call) {
        known if known < domains(table) => names.domain(known),
        unknown => format!("domain {unknown}, which the table hasn't,"),
    };
    asked_by(&who, call, names)
}

/// The caller's field, whatever the call is.
fn caller(call: &Call) -> usize {
    bits(call.first, 27, 22) as usize
}

fn asked_by(who: &str, call: &Call, names: &Names) -> String {
    if call.kind() == STRAY {
        return format!("a stray word with content {}", content(call.first));
    }
    let domain = |number: u32| names.domain(number as usize);
    let (a, b, c) = (call.a(), call.b(), call.c());
    let endpoint = names.endpoint(b as usize);
    let second = match call.second_content() {
        Some(number) => number.to_string(),
        None => "(no second word)".to_string(),
    };
    match call.kind() {
        LOOK_UP => format!("{who} looks up name {second}"),
        SEND => format!("{who} sends {second} to {endpoint}"),
        RECEIVE => format!("{who} receives from {endpoint}"),
        MY_ENDPOINTS => format!("{who} asks for its endpoints"),
        MY_RIGHTS => format!("{who} asks for its rights"),
        GRANT => format!(
            "{who} grants {} {} on {}",
            domain(b),
            rights_in_words(c),
            domain(a)
        ),
        REMOVE => format!("{who} gives up {} on {}", rights_in_words(c), domain(a)),
        REVOKE => format!(
            "{who} takes {} on {} back from {}",
            rights_in_words(c),
            domain(a),
            domain(b)
        ),
        kind => format!("{who} makes a call of unknown kind {kind}"),
    }
}

/// What an answer's three words say.
pub fn answer_in_words(answer: &[u32], names: &Names) -> String {
    let (code, x, y) = (bits(answer[0], 15, 0), answer[1], answer[2]);
    if code != 0 {
        return format!("refused with {code}: {}", meaning(code));
    }
    match bits(answer[0], 31, 28) {
        LOOK_UP => names.endpoint(x as usize),
        RECEIVE => format!("message {x}; {y} lost so far"),
        MY_ENDPOINTS => {
            let owned = (0..32).filter(|e| x >> e & 1 != 0);
            some_or_none(owned.map(|e| names.endpoint(e)))
        }
        MY_RIGHTS => {
            let both = u64::from(y) << 32 | u64::from(x);
            let sets = (0..16).map(|target| (target, (both >> (4 * target)) as u32 & 15));
            let held = sets.filter(|&(_, set)| set != 0);
            let said = |(target, set)| format!("{} on {}", letters(set), names.domain(target));
            some_or_none(held.map(said))
        }
        _ => "done".to_string(),
    }
}

/// What an answer says of a call, and what the call did besides on the table that was
/// before it: a send to a full queue is done, and a message is lost by it.
pub fn answer_on_table(before: &[u32], call: &Call, answer: &[u32], names: &Names) -> String {
    let said = answer_in_words(answer, names);
    match pushed_out(before, call, answer) {
        Some(message) => format!("{said}; message {message} was pushed out and is lost"),
        None => said,
    }
}

/// The message that a send pushed out: the oldest of a queue that was full.
fn pushed_out(before: &[u32], call: &Call, answer: &[u32]) -> Option<u32> {
    let endpoint = call.b() as usize;
    let sent = call.kind() == SEND && bits(answer[0], 15, 0) == 0;
    if !sent || endpoint >= endpoints(before) {
        return None;
    }
    let full = waiting(before, endpoint) == capacity(before, endpoint);
    full.then(|| content(endpoint_words(before, endpoint)[SLOTS_PLACE]))
}

fn some_or_none(items: impl Iterator<Item = String>) -> String {
    let items: Vec<String> = items.collect();
    match items.is_empty() {
        true => "none".to_string(),
        false => items.join(", "),
    }
}

/// An endpoint with the name that it is looked up by, after the one that a text gives.
pub fn endpoint_in_words(table: &[u32], endpoint: usize, names: &Names) -> String {
    let number = name(table, endpoint);
    match names.endpoint_name(endpoint) {
        Some(given) => format!("endpoint {endpoint} ({given}, name {number})"),
        None => format!("endpoint {endpoint} (name {number})"),
    }
}

/// What the word at a place is, of a table whose word 0 and length are right.
pub fn place_in_words(table: &[u32], place: usize, names: &Names) -> String {
    let n = domains(table);
    if place == 0 {
        return "word 0, the numbers of domains and endpoints".to_string();
    }
    if place <= n * n {
        let (holder, target) = (names.domain((place - 1) / n), names.domain((place - 1) % n));
        return format!("word {place}, the rights of {holder} on {target}");
    }
    let endpoint = names.endpoint((place - endpoint_place(table, 0)) / ENDPOINT_WORDS);
    let part = match (place - endpoint_place(table, 0)) % ENDPOINT_WORDS {
        NAME_PLACE => "name".to_string(),
        INFO_PLACE => "owner and capacity".to_string(),
        WAITING_PLACE => "waiting count".to_string(),
        LOST_PLACE => "lost count".to_string(),
        slot => format!("message slot {}", slot - SLOTS_PLACE),
    };
    format!("word {place}, {endpoint}'s {part}")
}

/// So many broken words of a table are reported.
const FAULTS_MAX: usize = 20;

/// What is wrong with a table, with the number that refuses it; nothing where
/// the table is accepted. The broken word that decides comes first, and the others
/// in lines of their own.
pub fn table_fault(table: &[u32], names: &Names) -> Option<(u32, String)> {
    let code = check_table(table);
    let fault = match code {
        0 => return None,
        2 if table.is_empty() => "the table is empty".to_string(),
        2 => format!("word 0 is {:08X}: {}", table[0], header_fault(table[0])),
        3 => format!(
            "word 0 asks for {}, the table has {}",
            counted(length(table[0]), "word"),
            table.len()
        ),
        _ => faults_in_words(table, code, names),
    };
    Some((code, fault))
}

fn header_fault(header: u32) -> &'static str {
    if !header_is_right(header & 0xF000_FFFF) {
        "its kind must be 1, with 1 to 16 domains and 0 to 32 endpoints"
    } else {
        "its bits 27 to 16 must be zero"
    }
}

/// The broken words of a table whose word 0 and length are right.
fn faults_in_words(table: &[u32], code: u32, names: &Names) -> String {
    let faults = faults(table, names);
    let said = |fault: &Fault| {
        let (place, word) = (fault.place, table[fault.place]);
        let place = place_in_words(table, place, names);
        format!("{place}, is {word:08X}: {}", fault.why)
    };
    let mut lines = faults.iter().take(FAULTS_MAX);
    let mut text = lines.next().map_or(meaning(code).to_string(), said);
    for fault in lines {
        text += &format!("\n  also with {}: {}", fault.code, said(fault));
    }
    if faults.len() > FAULTS_MAX {
        let more = counted(faults.len() - FAULTS_MAX, "broken word");
        text += &format!("\n  and {more} more");
    }
    text
}

/// A broken word: the number that it is refused with, its place, and what is wrong.
struct Fault {
    code: u32,
    place: usize,
    why: String,
}

/// Every broken word, in the order in which the check comes to them.
fn faults(table: &[u32], names: &Names) -> Vec<Fault> {
    let fault = |code| move |(place, why)| Fault { code, place, why };
    let rights = (1..=domains(table) * domains(table))
        .filter_map(|place| Some((place, rights_fault(table[place])?)));
    let mut faults: Vec<Fault> = rights.map(fault(4)).collect();
    for endpoint in 0..endpoints(table) {
        faults.extend(endpoint_faults(table, endpoint).map(fault(5)));
    }
    let repeated = repeated_names(table, names);
    let repeated: Vec<(usize, String)> = repeated
        .filter(|(place, _)| faults.iter().all(|fault| fault.place != *place))
        .collect();
    faults.extend(repeated.into_iter().map(fault(5)));
    faults
}

/// What is wrong where a word has another kind than its place asks for.
fn kind_fault(word: u32, wanted: u32) -> Option<String> {
    (kind(word) != wanted).then(|| format!("kind {} where {wanted} is wanted", kind(word)))
}

fn rights_fault(word: u32) -> Option<String> {
    let spare = || (bits(word, 27, 4) != 0).then(|| "bits 27 to 4 aren't zero".to_string());
    kind_fault(word, RIGHTS).or_else(spare)
}

/// The places of an endpoint's wrong words, and what is wrong with each.
fn endpoint_faults(table: &[u32], endpoint: usize) -> impl Iterator<Item = (usize, String)> + '_ {
    let start = endpoint_place(table, endpoint);
    let words = endpoint_words(table, endpoint);
    (0..ENDPOINT_WORDS).filter_map(move |at| {
        let word = words[at];
        let why = match at {
            NAME_PLACE => name_fault(word),
            INFO_PLACE => info_fault(word, domains(table)),
            WAITING_PLACE => waiting_fault(word, capacity(table, endpoint)),
            LOST_PLACE => kind_fault(word, LOST),
            slot => slot_fault(word, slot - SLOTS_PLACE, waiting(table, endpoint)),
        };
        Some((start + at, why?))
    })
}

fn name_fault(word: u32) -> Option<String> {
    let zero = || (content(word) == 0).then(|| "the name is 0".to_string());
    kind_fault(word, NAME).or_else(zero)
}

fn info_fault(word: u32, n: usize) -> Option<String> {
    let (owner, capacity) = (bits(word, 15, 8), bits(word, 7, 0));
    if let Some(wrong) = kind_fault(word, INFO) {
        return Some(wrong);
    }
    if bits(word, 27, 16) != 0 {
        return Some("bits 27 to 16 aren't zero".to_string());
    }
    if owner as usize >= n {
        return Some(format!("owner {owner} isn't below n {n}"));
    }
    let fits = (1..=SLOTS as u32).contains(&capacity);
    (!fits).then(|| format!("capacity {capacity} isn't 1 to {SLOTS}"))
}

fn waiting_fault(word: u32, capacity: usize) -> Option<String> {
    let waits = content(word);
    let too_many = || {
        let above = waits as usize > capacity;
        above.then(|| format!("{waits} wait and the capacity is {capacity}"))
    };
    kind_fault(word, WAITING).or_else(too_many)
}

fn slot_fault(word: u32, slot: usize, waiting: usize) -> Option<String> {
    if slot < waiting {
        return kind_fault(word, MESSAGE);
    }
    let filled = word != EMPTY_SLOT;
    filled.then(|| format!("a slot from the waiting count {waiting} on must be {EMPTY_SLOT:08X}"))
}

/// The places of the names that another endpoint has already.
fn repeated_names<'a>(
    table: &'a [u32],
    names: &'a Names,
) -> impl Iterator<Item = (usize, String)> + 'a {
    (0..endpoints(table)).filter_map(move |e| {
        let first = (0..e).find(|&first| name(table, first) == name(table, e))?;
        let first = names.endpoint(first);
        let why = format!("the name {} is that of {first}", name(table, e));
        Some((endpoint_place(table, e) + NAME_PLACE, why))
    })
}

#[cfg(test)]
mod tests {
    use super::*;
    use reference::cut;
    use reference::example::{LIST_L, TABLE_T};
    use reference::generate::{damaged_table, Rng};

    #[test]
    fn an_answer_in_words() {
        let said = |first, x, y| answer_in_words(&[first, x, y], &Names::none());
        assert_eq!(said(0x10C0_0000, 2, 0), "endpoint 2");
        assert_eq!(said(0x2000_0000, 0, 0), "done");
        assert_eq!(said(0x3040_0000, 9, 1), "message 9; 1 lost so far");
        assert_eq!(
            said(0x3040_0012, 0, 0),
            format!("refused with 18: {}", meaning(18))
        );
        assert_eq!(said(0x4000_0000, 0x8000_0001, 0), "endpoint 0, endpoint 31");
        assert_eq!(said(0x5000_0000, 0, 0), "none");
        assert_eq!(
            said(0x5000_0000, 15, 0x5000_0000),
            "SGRV on domain 0, SR on domain 15"
        );
    }

    #[test]
    fn one_thing_is_not_several() {
        assert_eq!(counted(1usize, "domain"), "1 domain");
        assert_eq!(counted(0u64, "call"), "0 calls");
        assert_eq!(counted(12u32, "table image"), "12 table images");
    }

    #[test]
    fn calls_of_the_worked_example() {
        let calls = cut(&LIST_L);
        let said = calls.iter().map(|call| call_in_words(call, &Names::none()));
        let said: Vec<String> = said.collect();
        assert_eq!(said[0], "domain 0 sends 5 to endpoint 1");
        assert_eq!(said[1], "domain 1 grants domain 0 SEND on domain 2");
        assert_eq!(said[4], "domain 2 receives from endpoint 1");
        assert_eq!(said[6], "a stray word with content 9");
        assert_eq!(said[7], "domain 0 asks for its rights");
    }

    #[test]
    fn names_stand_beside_the_numbers() {
        let names = "domain 0 link\ndomain 1 loader\ndomain 2 drives\nendpoint 1 belts";
        let names = Names::given(names);
        let said = |word| call_in_words(&cut(&[word])[0], &names);
        assert_eq!(
            call_in_words(&cut(&LIST_L)[0], &names),
            "domain 0 (link) sends 5 to endpoint 1 (belts)"
        );
        assert_eq!(
            said(0x3080_0100),
            "domain 2 (drives) receives from endpoint 1 (belts)"
        );
        assert_eq!(
            said(0x6042_0001),
            "domain 1 (loader) grants domain 0 (link) SEND on domain 2 (drives)"
        );
        assert_eq!(
            said(0x8042_0001),
            "domain 1 (loader) takes SEND on domain 2 (drives) back from domain 0 (link)"
        );
        assert_eq!(
            said(0x7042_0001),
            "domain 1 (loader) gives up SEND on domain 2 (drives)"
        );
        let answer = |first, x| answer_in_words(&[first, x, 0], &names);
        assert_eq!(answer(0x1000_0000, 1), "endpoint 1 (belts)");
        assert_eq!(answer(0x4000_0000, 3), "endpoint 0, endpoint 1 (belts)");
        assert_eq!(answer(0x5000_0000, 0x10), "S on domain 1 (loader)");
        let place = |place| place_in_words(&TABLE_T, place, &names);
        let rights = "word 6, the rights of domain 1 (loader) on domain 2 (drives)";
        assert_eq!(place(6), rights);
        assert_eq!(place(22), "word 22, endpoint 1 (belts)'s name");
    }

    #[test]
    fn calls_that_will_be_refused() {
        let said = |word| call_in_words(&cut(&[word])[0], &Names::none());
        assert_eq!(
            said(0x2000_0100),
            "domain 0 sends (no second word) to endpoint 1"
        );
        assert_eq!(
            said(0x7042_0003),
            "domain 1 gives up SEND+GRANT on domain 2"
        );
        assert_eq!(
            said(0x6042_0007),
            "domain 1 grants domain 0 SEND+GRANT+REMOVE on domain 2"
        );
        assert_eq!(
            said(0x7042_0011),
            "domain 1 gives up the rights 17 on domain 2"
        );
        assert_eq!(
            said(0x8042_0308),
            "domain 1 takes REVOKE on domain 2 back from domain 3"
        );
        assert_eq!(said(0x90C0_0000), "domain 3 makes a call of unknown kind 9");
    }

    #[test]
    fn places_of_a_table() {
        let said = |place| place_in_words(&TABLE_T, place, &Names::none());
        assert_eq!(said(6), "word 6, the rights of domain 1 on domain 2");
        assert_eq!(said(9), "word 9, the rights of domain 2 on domain 2");
        assert_eq!(said(10), "word 10, endpoint 0's name");
        assert_eq!(said(33), "word 33, endpoint 1's message slot 7");
    }

    fn fault(place: usize, word: u32) -> (u32, String) {
        let mut table = TABLE_T;
        table[place] = word;
        table_fault(&table, &Names::none()).unwrap()
    }

    #[test]
    fn faults_of_the_whole_table_are_reported() {
        assert_eq!(table_fault(&TABLE_T, &Names::none()), None);
        assert_eq!(
            table_fault(&[], &Names::none()),
            Some((2, "the table is empty".into()))
        );
        let (code, said) = table_fault(&TABLE_T[..33], &Names::none()).unwrap();
        assert_eq!(code, 3);
        assert_eq!(said, "word 0 asks for 34 words, the table has 33");
        let (code, said) = fault(0, 0x1001_0302);
        assert_eq!(code, 2);
        assert!(said.ends_with("its bits 27 to 16 must be zero"), "{said}");
    }

    #[test]
    fn faults_of_a_rights_word_are_reported() {
        let (code, said) = fault(9, 0x2000_0010);
        assert_eq!(code, 4);
        let rights = "word 9, the rights of domain 2 on domain 2, is 20000010";
        assert_eq!(said, format!("{rights}: bits 27 to 4 aren't zero"));
        let (code, said) = fault(6, 0x3000_0007);
        assert_eq!(code, 4);
        assert!(said.ends_with("is 30000007: kind 3 where 2 is wanted"));
    }

    #[test]
    fn faults_of_an_endpoint_word_are_reported() {
        let (code, said) = fault(10, 0x3000_0000);
        assert_eq!(code, 5);
        let name = "word 10, endpoint 0's name, is 30000000: the name is 0";
        assert_eq!(said, name);
        let why = |place, word| fault(place, word).1.split_once(": ").unwrap().1.to_string();
        let repeats = "the name 17 is that of endpoint 0";
        assert_eq!(why(22, 0x3000_0011), repeats);
        assert_eq!(why(11, 0x4000_0302), "owner 3 isn't below n 3");
        assert_eq!(why(11, 0x4000_0200), "capacity 0 isn't 1 to 8");
        assert_eq!(why(11, 0x4000_0209), "capacity 9 isn't 1 to 8");
        assert_eq!(why(11, 0x4001_0202), "bits 27 to 16 aren't zero");
        assert_eq!(why(24, 0x5000_0002), "2 wait and the capacity is 1");
        assert_eq!(why(25, 0x4000_0000), "kind 4 where 6 is wanted");
        let empty = "a slot from the waiting count 0 on must be F0000000";
        assert_eq!(why(27, 0xF000_0001), empty);
        let mut table = TABLE_T;
        (table[24], table[26]) = (0x5000_0001, 0xE000_0000);
        let (_, said) = table_fault(&table, &Names::none()).unwrap();
        assert!(said.ends_with("is E0000000: kind 14 where 15 is wanted"));
    }

    #[test]
    fn every_broken_word_is_reported_and_the_one_that_decides_first() {
        let mut table = TABLE_T;
        (table[9], table[3]) = (0x2000_0010, 0x3000_0000);
        (table[12], table[22]) = (0x5000_0009, 0x3000_0011);
        let (code, said) = table_fault(&table, &Names::none()).unwrap();
        let lines: Vec<&str> = said.lines().collect();
        assert_eq!((code, lines.len()), (4, 4), "{said}");
        assert!(lines[0].starts_with("word 3, the rights of domain 0 on domain 2, is 30000000"));
        assert!(lines[1].starts_with("  also with 4: word 9, the rights of domain 2 on domain 2"));
        let waits = "  also with 5: word 12, endpoint 0's waiting count, is 50000009: 9 wait";
        assert!(lines[2].starts_with(waits), "{said}");
        assert!(
            lines[3].ends_with("endpoint 1's name, is 30000011: the name 17 is that of endpoint 0")
        );
    }

    #[test]
    fn a_word_is_reported_once_and_many_are_counted() {
        let mut table = TABLE_T;
        (table[10], table[22]) = (0x3000_0000, 0x3000_0000);
        let (_, said) = table_fault(&table, &Names::none()).unwrap();
        assert_eq!(said.matches("the name is 0").count(), 2, "{said}");
        assert_eq!(said.lines().count(), 2, "{said}");
        table[1..].fill(0);
        let (code, said) = table_fault(&table, &Names::none()).unwrap();
        assert_eq!((code, said.lines().count()), (4, 21), "{said}");
        // All 33 but word 0's are of a wrong kind.
        assert!(said.ends_with("\n  and 13 broken words more"), "{said}");
    }

    #[test]
    fn every_table_refused_with_4_or_5_has_its_word() {
        let mut rng = Rng::new(8);
        let mut met = [0; 6];
        for _ in 0..4000 {
            let (table, code) = damaged_table(&mut rng, 4, 4);
            let said = table_fault(&table, &Names::none()).map(|(_, said)| said);
            let said = said.unwrap_or_default();
            met[code as usize] += 1;
            let named = said.starts_with("word ") && said.contains(": ");
            assert!(named || code < 4, "{code}: {said}");
            if let 4 | 5 = code {
                assert_eq!(faults(&table, &Names::none())[0].code, code, "{said}");
            }
        }
        assert!(met[4] > 100 && met[5] > 100, "{met:?}");
    }

    #[test]
    fn every_code_has_its_own_meaning() {
        let codes: Vec<u32> = (0..=7).chain(10..=23).collect();
        for &code in &codes {
            assert_ne!(meaning(code), meaning(99));
            let same = codes.iter().filter(|&&c| meaning(c) == meaning(code));
            assert_eq!(same.count(), 1, "code {code}");
        }
    }
}
