//! What the fuzz draws: runs, and table images for the check over bytes.
//!
//! Each is made from the seed and its own number alone, so that any of them can
//! be made again alone. What is aimed at goes round with the number, so that
//! every code is met on every run of some hundreds.

use reference::calls::{cut, LIST_WORDS_MAX, STRAY};
use reference::entry::ANSWER_WORDS;
use reference::generate::{call_word, case, damaged_table, lent_panel, list, table, table_of, Rng};
use reference::table::{
    check_table, domains, endpoint_place, endpoints, name, owner, DOMAINS_MAX, HEADER, NAME,
};
use reference::words::{to_bytes, word};

use crate::cases::Case;

/// How often one of the runs has a list that may be as long as a list can be.
const LONG_EVERY: u64 = 1024;

/// The most domains, endpoints and list words of the usual runs, in turn.
const SIZES: [(usize, usize, usize); 6] = [
    (16, 32, 24),
    (4, 4, 48),
    (3, 2, 192),
    (16, 32, 8),
    (8, 8, 32),
    (16, 4, 64),
];

/// A random generator for one draw: near numbers and seeds give far states.
pub fn rng_for(seed: u64, number: u64) -> Rng {
    let mut first = Rng::new(seed);
    Rng::new(first.draw() ^ number.wrapping_mul(0xD6E8_FEB8_6659_FD93))
}

/// The run of a number.
pub fn run_case(seed: u64, number: u64) -> Case {
    let rng = &mut rng_for(seed, number);
    if number % LONG_EVERY == LONG_EVERY - 1 {
        return drawn_case(rng, 16, 32, LIST_WORDS_MAX);
    }
    match (number % 8) as usize {
        6 => queues_case(rng),
        7 => fields_case(rng),
        turn => {
            let (n, m, words) = SIZES[turn];
            drawn_case(rng, n, m, words)
        }
    }
}

/// A run, now and then with something that an entry refuses, 1 to 6.
fn drawn_case(rng: &mut Rng, n: usize, m: usize, words: usize) -> Case {
    let lent = case(rng, n, m, words);
    let holders = holders_space(rng, &lent.table);
    Case {
        table: lent.table,
        list: lent.list,
        answers: lent.answers,
        holders,
    }
}

/// Words for the holders of any words as a table, mostly one a domain.
pub fn holders_space(rng: &mut Rng, table: &[u32]) -> Vec<u32> {
    let n = table.first().map_or(1, |_| domains(table));
    lent_panel(rng, n.clamp(1, DOMAINS_MAX))
}

/// A small table of which the queues are driven full and empty: runs of sends by
/// the owner, who mostly may, then runs of receives.
fn queues_case(rng: &mut Rng) -> Case {
    let n = rng.between(1, 3);
    let m = rng.between(1, 2);
    let mut table = table_of(rng, n, m);
    for domain in 0..n {
        // without a right on itself an owner fills no queue
        table[1 + domain * n + domain] |= u32::from(!rng.chance(1, 8));
    }
    let mut list = list(rng, &table, 12);
    for _ in 0..rng.between(1, 4) {
        let e = rng.below(m);
        let owner = owner(&table, e);
        for _ in 0..rng.between(0, 10) {
            list.push(call_word(2, owner, 0, e, 0));
            list.push(word(STRAY, rng.below(1000) as u32));
        }
        let receives = rng.between(0, 10);
        list.extend(vec![call_word(3, owner, 0, e, 0); receives]);
    }
    with_space(rng, table, list)
}

/// Calls whose fields are drawn from few numbers, so that they meet each other's
/// limits: many are refused, each kind at each of its places.
fn fields_case(rng: &mut Rng) -> Case {
    let mut table = table(rng, 5, 5);
    bring_names_near(rng, &mut table);
    let (n, m) = (domains(&table), endpoints(&table));
    let mut list = Vec::new();
    for _ in 0..rng.between(1, 30) {
        let kind = rng.pick(&[0, 1, 1, 2, 2, 3, 3, 4, 5, 6, 6, 6, 7, 7, 8, 8, 9, 14, 15]);
        let a = field(rng, n, 63);
        let b = field(rng, n.max(m), 255);
        let c = rng.pick(&[0, 0, 1, 2, 3, 4, 7, 8, 12, 15, 16, 255]);
        let caller = rng.below(n + 1);
        list.push(call_word(kind, caller, a, b, c));
        if rng.chance(1, 3) {
            list.push(word(STRAY, near_name(rng, &table)));
        }
    }
    with_space(rng, table, list)
}

/// A field: 0, a number up to `bound`, which is one too many, or the largest.
fn field(rng: &mut Rng, bound: usize, largest: usize) -> usize {
    match rng.below(16) {
        0..=6 => 0,
        7 => largest,
        _ => rng.between(0, bound),
    }
}

/// A table's name, or one that differs from it in one bit.
fn near_name(rng: &mut Rng, table: &[u32]) -> u32 {
    let m = endpoints(table);
    if m == 0 {
        return rng.below(8) as u32;
    }
    let name = name(table, rng.below(m));
    match rng.below(2) {
        0 => name,
        _ => name ^ 1 << rng.below(28),
    }
}

/// Gives one endpoint of an accepted table a name that differs from another's in
/// one bit, where that leaves the table accepted.
fn bring_names_near(rng: &mut Rng, table: &mut [u32]) {
    if endpoints(table) == 0 {
        return;
    }
    let place = endpoint_place(table, rng.below(endpoints(table)));
    let named = table[place];
    table[place] = word(NAME, near_name(rng, table));
    if check_table(table) != 0 {
        table[place] = named;
    }
}

/// Answer space for a list: enough, with something beyond it.
fn with_space(rng: &mut Rng, table: Vec<u32>, list: Vec<u32>) -> Case {
    let space = ANSWER_WORDS * cut(&list).len() + rng.below(5);
    let answers = (0..space).map(|_| rng.word()).collect();
    let holders = (0..domains(&table)).map(|_| rng.word()).collect();
    Case {
        table,
        list,
        answers,
        holders,
    }
}

/// The table image of a number: sound, damaged in one word or in several, cut
/// short, too long, of an odd length, or any bytes at all.
pub fn image(seed: u64, number: u64) -> Vec<u8> {
    let rng = &mut rng_for(!seed, number);
    let (n, m) = rng.pick(&[(16, 32), (16, 32), (4, 4), (2, 1)]);
    match number % 8 {
        0 => sound(rng, n, m),
        1 => to_bytes(&damaged_table(rng, n, m).0),
        2 => with_words_altered(rng, n, m, 1),
        3 => with_words_altered(rng, n, m, 4),
        4 => cut_short(rng, n, m),
        5 => too_long(rng, n, m),
        6 => of_odd_length(rng, n, m),
        _ => any_bytes(rng),
    }
}

/// A sound table, half of them with two names that are nearly equal.
fn sound(rng: &mut Rng, n: usize, m: usize) -> Vec<u8> {
    let mut words = table(rng, n, m);
    if rng.chance(1, 2) {
        bring_names_near(rng, &mut words);
    }
    to_bytes(&words)
}

/// A table of which up to `most` words have a bit or all bits drawn again.
fn with_words_altered(rng: &mut Rng, n: usize, m: usize, most: usize) -> Vec<u8> {
    let mut words = table(rng, n, m);
    for _ in 0..rng.between(1, most) {
        let place = rng.below(words.len());
        words[place] ^= match rng.below(4) {
            0 => rng.word(),
            1 => 1 << rng.between(28, 31),
            _ => 1 << rng.below(32),
        };
    }
    to_bytes(&words)
}

fn cut_short(rng: &mut Rng, n: usize, m: usize) -> Vec<u8> {
    let mut bytes = to_bytes(&table(rng, n, m));
    let left = match rng.below(4) {
        0 => rng.below(8),
        1 => bytes.len() - 4,
        _ => rng.below(bytes.len()),
    };
    bytes.truncate(left);
    bytes
}

fn too_long(rng: &mut Rng, n: usize, m: usize) -> Vec<u8> {
    let mut bytes = to_bytes(&table(rng, n, m));
    let more = 4 * rng.pick(&[1, 1, 12, 700]);
    bytes.resize(bytes.len() + more, rng.below(256) as u8);
    bytes
}

fn of_odd_length(rng: &mut Rng, n: usize, m: usize) -> Vec<u8> {
    let mut bytes = to_bytes(&table(rng, n, m));
    if rng.chance(1, 2) {
        bytes.resize(bytes.len() + rng.between(1, 3), 0xF0);
    } else {
        bytes.truncate(bytes.len() - rng.between(1, 3));
    }
    bytes
}

/// Any bytes, now and then after a word 0 that keeps its layout.
fn any_bytes(rng: &mut Rng) -> Vec<u8> {
    let count = rng.size(0, 2600);
    let mut bytes: Vec<u8> = (0..count).map(|_| rng.word() as u8).collect();
    if bytes.len() >= 4 && rng.chance(3, 4) {
        let n = rng.between(1, 16) as u32;
        let header = word(HEADER, n << 8 | rng.below(33) as u32);
        bytes[..4].copy_from_slice(&header.to_le_bytes());
        if rng.chance(1, 2) {
            bytes.resize(4 * reference::table::length(header), 0x20);
        }
    }
    bytes
}

#[cfg(test)]
mod tests {
    use super::*;

    #[test]
    fn a_number_gives_the_same_draw_again() {
        assert_eq!(run_case(3, 17), run_case(3, 17));
        assert_ne!(run_case(3, 17), run_case(4, 17));
        assert_eq!(image(3, 17), image(3, 17));
        assert_ne!(image(3, 16), image(3, 24));
    }

    #[test]
    fn lists_and_tables_have_every_size() {
        let cases: Vec<Case> = (0..20_000).map(|number| run_case(1, number)).collect();
        let lengths = |words: usize| cases.iter().any(|case| case.list.len() == words);
        assert!(lengths(0) && lengths(4096) && lengths(4097));
        let sound: Vec<&Case> = cases
            .iter()
            .filter(|case| reference::check_table(&case.table) == 0)
            .collect();
        for n in 1..=16 {
            assert!(sound.iter().any(|case| domains(&case.table) == n));
        }
        for m in 0..=32 {
            assert!(sound.iter().any(|case| endpoints(&case.table) == m));
        }
    }

    /// On either side of the length at which one run chooses between the other two.
    #[test]
    fn lists_are_short_and_long_on_every_kind_of_table() {
        let cases: Vec<Case> = (0..4000).map(|number| run_case(6, number)).collect();
        let of = |table: usize, list: std::ops::Range<usize>| {
            let fits = |case: &&Case| case.table.len() <= table && list.contains(&case.list.len());
            cases.iter().filter(fits).count()
        };
        let (small, large) = (of(65, 128..4097), of(641, 128..4097) - of(65, 128..4097));
        let short = of(641, 1..128);
        assert!(
            short > 1000 && small > 150 && large > 5,
            "{short} {small} {large}"
        );
    }

    #[test]
    fn images_meet_every_answer_and_odd_lengths() {
        let mut met = [0; 6];
        let mut odd = 0;
        for number in 0..4000 {
            let bytes = image(1, number);
            met[reference::check_bytes(&bytes) as usize] += 1;
            odd += usize::from(!bytes.len().is_multiple_of(4));
        }
        assert!(met[0] > 500 && met[2..].iter().all(|&count| count > 200));
        assert!(odd > 400);
    }
}
