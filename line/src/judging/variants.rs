//! Variants of a given table and list for commissioning: the table damaged in
//! many ways, the list scrambled in many.

use reference::calls::{cut, Call, LIST_WORDS_MAX};
use reference::entry::ANSWER_WORDS;
use reference::generate::Rng;
use reference::table::{
    capacity, domains, endpoint_place, endpoints, name, owner, DOMAINS_MAX, ENDPOINTS_MAX,
    ENDPOINT_WORDS, HEADER, INFO, INFO_PLACE, NAME, NAME_PLACE, SLOTS, WAITING, WAITING_PLACE,
};
use reference::words::{word, CONTENT_MAX};

use crate::cases::Case;
use crate::text::explain::counted;
use crate::text::input::Input;

/// One variant, with what was done to make it.
#[derive(Clone)]
pub struct Variant {
    pub what: String,
    pub case: Case,
}

/// How many lists are scrambled, and how many tables damaged in several words.
const SCRAMBLED: usize = 300;
const SEVERAL: usize = 100;

/// Words to lend for the holders of a table: one a domain, and none of them right.
pub fn holders_for(table: &[u32]) -> Vec<u32> {
    let n = match table {
        [] => 0,
        table => domains(table),
    };
    (0..n as u32).map(|place| 0xC0DE_0000 | place).collect()
}

/// What a run is lent for an input: answer space that is just enough, and some
/// words beyond it that must stay.
pub fn case_of(input: &Input) -> Case {
    let space = ANSWER_WORDS * cut(&input.list).len() + 4;
    Case {
        table: input.table.clone(),
        list: input.list.clone(),
        answers: (0..space as u32).map(|place| 0xC0DE_0000 | place).collect(),
        holders: holders_for(&input.table),
    }
}

/// Damaged variants of the table: every word with another kind, each bit of each kind of
/// word turned, numbers at their edges and just past them, several words at once, cut
/// short and too long. Some of them are sound all the same.
pub fn damaged_tables(input: &Input, rng: &mut Rng) -> Vec<Variant> {
    let table = &input.table;
    let mut damaged = Vec::new();
    for place in 0..table.len() {
        let kind = (rng.between(1, 15) as u32) << 28;
        let what = format!("table word {place} with another kind");
        damaged.push((what, altered(table, place, kind)));
    }
    for (place, bit) in turned_bits(table) {
        let what = format!("table word {place} with bit {bit} turned");
        damaged.push((what, altered(table, place, 1 << bit)));
    }
    damaged.extend(at_their_edges(table));
    for _ in 0..SEVERAL {
        let what = "several table words altered".to_string();
        damaged.push((what, several_altered(table, rng)));
    }
    for length in [0, 1, table.len().saturating_sub(1)] {
        let what = format!("the table cut to {}", counted(length, "word"));
        damaged.push((what, table[..length].to_vec()));
    }
    let longer = [&table[..], &[0xF000_0000]].concat();
    damaged.push(("a word after the table".to_string(), longer));
    let made = damaged.into_iter();
    made.map(|(what, table)| of(what, table, input.list.clone()))
        .collect()
}

/// A variant of a table and a list.
fn of(what: impl Into<String>, table: Vec<u32>, list: Vec<u32>) -> Variant {
    Variant {
        what: what.into(),
        case: case_of(&Input { table, list }),
    }
}

/// Places and bits such that each bit is turned in some word of each kind of place, and
/// each word has one.
fn turned_bits(table: &[u32]) -> Vec<(usize, u32)> {
    let first = endpoint_place(table, 0);
    let of_endpoints = |at: usize| (first + at..table.len()).step_by(ENDPOINT_WORDS).collect();
    let mut alike: Vec<Vec<usize>> = vec![vec![0], (1..first).collect()];
    alike.extend((0..ENDPOINT_WORDS).map(of_endpoints));
    let turned = alike.iter().filter(|places| !places.is_empty());
    let turned = turned.flat_map(|places| {
        (0..places.len().max(32)).map(|i| (places[i % places.len()], i as u32 % 32))
    });
    turned.collect()
}

/// The table with a number at its edge or just past it, or a name that is 0 or repeats.
fn at_their_edges(table: &[u32]) -> Vec<(String, Vec<u32>)> {
    let (n, m) = (domains(table) as u32, endpoints(table) as u32);
    let (most_n, most_m) = (DOMAINS_MAX as u32, ENDPOINTS_MAX as u32);
    let headers = [m, (most_n + 1) << 8 | m, n << 8 | (most_m + 1)];
    let mut altered: Vec<(usize, u32)> = headers.map(|sizes| (0, word(HEADER, sizes))).to_vec();
    for e in 0..endpoints(table) {
        let start = endpoint_place(table, e);
        let (owner, capacity) = (owner(table, e) as u32, capacity(table, e) as u32);
        let slots = SLOTS as u32;
        let other = name(table, (e + 1) % endpoints(table));
        let names = [0, other, 1 << 27, CONTENT_MAX];
        altered.extend(names.map(|name| (start + NAME_PLACE, word(NAME, name))));
        let owners = [n - 1, n].map(|owner| owner << 8 | capacity);
        let capacities = [0, 1, slots, slots + 1].map(|capacity| owner << 8 | capacity);
        let infos = owners.into_iter().chain(capacities);
        altered.extend(infos.map(|info| (start + INFO_PLACE, word(INFO, info))));
        let waits = [capacity, capacity + 1];
        altered.extend(waits.map(|waits| (start + WAITING_PLACE, word(WAITING, waits))));
    }
    let made = altered.into_iter().map(|(place, word)| {
        let mut table = table.to_vec();
        table[place] = word;
        (format!("table word {place} as {word:08X}"), table)
    });
    made.collect()
}

fn altered(table: &[u32], place: usize, bits: u32) -> Vec<u32> {
    let mut table = table.to_vec();
    table[place] ^= bits;
    table
}

fn several_altered(table: &[u32], rng: &mut Rng) -> Vec<u32> {
    let mut table = table.to_vec();
    for _ in 0..rng.between(2, 6) {
        let place = rng.below(table.len());
        table[place] = match rng.below(3) {
            0 => rng.word(),
            1 => table[place] ^ 1 << rng.below(32),
            _ => table[rng.below(table.len())],
        };
    }
    table
}

/// Scrambled variants of the list, and those at the entry's edges.
pub fn scrambled_lists(input: &Input, rng: &mut Rng) -> Vec<Variant> {
    let mut variants = entry_edges(input).to_vec();
    while variants.len() < SCRAMBLED {
        let (what, list) = scrambled(&input.list, rng);
        variants.push(of(format!("the list {what}"), input.table.clone(), list));
    }
    variants
}

/// The list on both sides of what the entry refuses: with the answer space that it needs
/// and one word less, with a word too few and one too many for the holders, and repeated
/// to 4,096 words and one more. And no list at all, which runs and sets the holders.
pub fn entry_edges(input: &Input) -> [Variant; 7] {
    let enough = ANSWER_WORDS * cut(&input.list).len();
    // The list as it is, with other words lent.
    let lent = |what, alter: &dyn Fn(&mut Case)| {
        let mut variant = of(what, input.table.clone(), input.list.clone());
        alter(&mut variant.case);
        variant
    };
    let repeated = |what, words| {
        let list = [&input.list[..], &[0xF000_0000]].concat();
        let list = list.into_iter().cycle().take(words).collect();
        of(what, input.table.clone(), list)
    };
    [
        lent("the answer space just as it is needed", &|case| {
            case.answers.truncate(enough)
        }),
        lent("the answer space one word too short", &|case| {
            case.answers.truncate(enough.saturating_sub(1))
        }),
        lent("one word too few for the holders", &|case| {
            case.holders.pop();
        }),
        lent("one word too many for the holders", &|case| {
            case.holders.push(7)
        }),
        repeated("no list", 0),
        repeated("the list repeated to 4,096 words", LIST_WORDS_MAX),
        repeated("the list repeated to 4,097 words", LIST_WORDS_MAX + 1),
    ]
}

/// The list with one thing done to it; an empty list gets a word.
fn scrambled(list: &[u32], rng: &mut Rng) -> (&'static str, Vec<u32>) {
    let mut list = list.to_vec();
    if list.is_empty() {
        return ("with a word of any bits", vec![rng.word()]);
    }
    let place = rng.below(list.len());
    match rng.below(7) {
        0 => ("with its calls in another order", shuffled(&list, rng)),
        1 => {
            list[place] ^= 1 << rng.below(32);
            ("with one bit turned", list)
        }
        2 => {
            list.remove(place);
            ("with a word left out", list)
        }
        3 => {
            list.truncate(place);
            ("cut short", list)
        }
        4 => {
            let caller = (rng.below(64) as u32) << 22;
            list[place] = list[place] & !(63 << 22) | caller;
            ("with another caller in one word", list)
        }
        5 => {
            list.rotate_left(place);
            ("turned round", list)
        }
        _ => ("with words of any bits among its own", mixed(&list, rng)),
    }
}

fn shuffled(list: &[u32], rng: &mut Rng) -> Vec<u32> {
    let mut calls = cut(list);
    for last in (1..calls.len()).rev() {
        calls.swap(last, rng.between(0, last));
    }
    calls.iter().flat_map(Call::words).collect()
}

fn mixed(list: &[u32], rng: &mut Rng) -> Vec<u32> {
    let drawn = list
        .iter()
        .map(|&word| if rng.chance(1, 3) { rng.word() } else { word });
    drawn.collect()
}

#[cfg(test)]
mod tests {
    use super::*;
    use crate::judging::compare::separate_run;

    #[test]
    fn there_are_hundreds_and_they_meet_every_entry_code() {
        let input = Input::example();
        let mut rng = Rng::new(1);
        let mut variants = damaged_tables(&input, &mut rng);
        let (kinds_of_place, edges) = (14, 3 + 12 * 2);
        assert_eq!(variants.len(), 34 + 32 * kinds_of_place + edges + 104);
        variants.extend(scrambled_lists(&input, &mut rng));
        let mut met = [0; 7];
        for Variant { case, .. } in &variants {
            met[separate_run(case).unwrap().outcome.code as usize] += 1;
        }
        assert!(met.iter().all(|&count| count > 0), "{met:?}");
    }

    #[test]
    fn an_empty_list_and_a_table_of_one_domain_have_variants_too() {
        let input = Input {
            table: vec![0x1000_0100, 0x2000_0000],
            list: vec![],
        };
        let mut rng = Rng::new(1);
        assert_eq!(damaged_tables(&input, &mut rng).len(), 2 + 2 * 32 + 3 + 104);
        assert_eq!(scrambled_lists(&input, &mut rng).len(), 300);
    }
}
