//! Tables as a worn card gives them, and what is lent to a repair.

use super::{
    bad_info, bad_name, damage_endpoint, damage_header, damage_length, damage_rights, other_kind,
    table, wild_word, Rng,
};
use crate::repair::{repair, PAIR_WORDS};
use crate::table::{endpoint_place, endpoints, INFO_PLACE, NAME_PLACE, WAITING_PLACE};
use crate::words::word;

/// What is lent to one repair.
#[derive(Debug, Clone, PartialEq, Eq)]
pub struct RepairCase {
    pub table: Vec<u32>,
    /// Holds words that a repair must leave past its pairs.
    pub list: Vec<u32>,
}

/// A repair of a worn table, now and then one that is refused by 33 or 34. The list
/// is often just long enough, or just too short.
pub fn repair_case(rng: &mut Rng, max_n: usize, max_m: usize) -> RepairCase {
    let table = worn_table(rng, max_n, max_m);
    let needed = PAIR_WORDS * words_to_alter(&table);
    let space = match rng.below(8) {
        0 => rng.below(needed + 1),
        1 => needed.saturating_sub(1),
        2 | 3 => needed,
        _ => needed + rng.below(8),
    };
    let list = (0..space).map(|_| rng.word()).collect();
    RepairCase { table, list }
}

fn words_to_alter(table: &[u32]) -> usize {
    let mut list = vec![0; PAIR_WORDS * table.len()];
    repair(&mut table.to_vec(), &mut list).1 as usize
}

/// A table of 1 to `max_n` domains and 0 to `max_m` endpoints, worn in one of the ways
/// below; now and then a sound one.
pub fn worn_table(rng: &mut Rng, max_n: usize, max_m: usize) -> Vec<u32> {
    let mut words = table(rng, max_n, max_m);
    match rng.below(16) {
        0 => {}
        1..=3 => flip_one_bit(rng, &mut words),
        4..=6 => overwrite_runs(rng, &mut words),
        7..=9 => but_for_the_frame(rng, &mut words, overwrite_runs),
        10 => overwrite_many(rng, &mut words),
        11 | 12 => but_for_the_frame(rng, &mut words, overwrite_many),
        13 | 14 => but_for_the_frame(rng, &mut words, break_few),
        _ => damage_frame(rng, &mut words),
    }
    words
}

/// Flips one bit anywhere.
pub fn flip_one_bit(rng: &mut Rng, table: &mut [u32]) {
    let place = rng.below(table.len());
    table[place] ^= 1 << rng.below(32);
}

/// Overwrites one to three runs of words.
pub fn overwrite_runs(rng: &mut Rng, table: &mut [u32]) {
    for _ in 0..rng.between(1, 3) {
        let start = rng.below(table.len());
        let length = rng.between(1, 24).min(table.len() - start);
        let run = worn_run(rng, table, start, length);
        table[start..start + length].copy_from_slice(&run);
    }
}

/// A run of words as it comes back: erased, with a bit stuck, read at another place,
/// or anything at all.
fn worn_run(rng: &mut Rng, table: &[u32], start: usize, length: usize) -> Vec<u32> {
    let old = &table[start..start + length];
    let bit = 1 << rng.below(32);
    let elsewhere = match rng.below(2) {
        0 => start.saturating_sub(1),
        _ => rng.below(table.len() - length + 1),
    };
    match rng.below(6) {
        0 => vec![u32::MAX; length],
        1 => vec![0; length],
        2 => old.iter().map(|word| word | bit).collect(),
        3 => old.iter().map(|word| word & !bit).collect(),
        4 => table[elsewhere..elsewhere + length].to_vec(),
        _ => (0..length).map(|_| wild_word(rng)).collect(),
    }
}

/// Overwrites many words, each by itself.
pub fn overwrite_many(rng: &mut Rng, table: &mut [u32]) {
    let times = rng.pick(&[1, 4, 8]);
    for place in 0..table.len() {
        if rng.chance(times, 16) {
            table[place] = match rng.below(4) {
                0 => other_kind(rng, table[place]),
                1 => table[place] ^ (1 << rng.below(32)),
                2 => table[rng.below(table.len())],
                _ => wild_word(rng),
            };
        }
    }
}

/// Breaks one to four words of a sound table, each in a way that its place refuses.
pub fn break_few(rng: &mut Rng, table: &mut [u32]) {
    let sound = table.to_vec();
    for _ in 0..rng.between(1, 4) {
        let mut one_broken = sound.clone();
        if rng.chance(1, 3) {
            damage_rights(rng, &mut one_broken);
        } else {
            damage_endpoint(rng, &mut one_broken);
        }
        for place in (0..sound.len()).filter(|&place| one_broken[place] != sound[place]) {
            table[place] = one_broken[place];
        }
    }
}

/// Wears a table out and puts back the header, the names and the infos, so that it can
/// be repaired.
pub fn but_for_the_frame(rng: &mut Rng, table: &mut [u32], wear: fn(&mut Rng, &mut [u32])) {
    let old = table.to_vec();
    wear(rng, table);
    table[0] = old[0];
    for e in 0..endpoints(&old) {
        let place = endpoint_place(&old, e);
        table[place..place + WAITING_PLACE].copy_from_slice(&old[place..place + WAITING_PLACE]);
    }
}

/// Damages the header, the length, a name or an info, so that the table can't be
/// repaired.
pub fn damage_frame(rng: &mut Rng, table: &mut Vec<u32>) {
    let ways = if endpoints(table) == 0 { 2 } else { 4 };
    match rng.below(ways) {
        0 => damage_header(rng, table),
        1 => damage_length(rng, table),
        _ => damage_name_or_info(rng, table),
    }
}

fn damage_name_or_info(rng: &mut Rng, table: &mut [u32]) {
    let e = rng.below(endpoints(table));
    let (at, content) = match rng.below(2) {
        0 => (NAME_PLACE, bad_name(rng, table, e)),
        _ => (INFO_PLACE, bad_info(rng, table, e)),
    };
    let place = endpoint_place(table, e) + at;
    let old = table[place];
    table[place] = match content {
        Some(content) if rng.chance(3, 4) => word(old >> 28, content),
        _ => other_kind(rng, old),
    };
}
