//! Bringing back a table from a worn card (document 02, request (k)): rows for what is
//! broken and what becomes of it, the edges of 33 and 34, and worn tables against a
//! second way of working out what a repair leaves, which asks the table's check alone.

use crate::support::{bare_table, place, shown, table_with, UNTOUCHED};
use reference::example::TABLE_T;
use reference::generate::{
    damage_frame, flip_one_bit, repair_case, table, table_of, worn_table, RepairCase, Rng,
};
use reference::table::domains;
use reference::{check_table, repair, undo};

const NO_RIGHTS: u32 = 0x2000_0000;
const EMPTY: [u32; 10] = [
    0x5000_0000,
    0x6000_0000,
    0xF000_0000,
    0xF000_0000,
    0xF000_0000,
    0xF000_0000,
    0xF000_0000,
    0xF000_0000,
    0xF000_0000,
    0xF000_0000,
];

/// A repair with a list of some length: the answer, the table and the list after it.
fn repaired(table: &[u32], space: usize) -> ((u32, u32), Vec<u32>, Vec<u32>) {
    let (mut table, mut list) = (table.to_vec(), vec![UNTOUCHED; space]);
    let answer = repair(&mut table, &mut list);
    (answer, table, list)
}

/// Asserts what a repair leaves and which words it tells of, with some list past the
/// pairs that stays; and that it takes just so much list.
fn is_repaired(worn: &[u32], sound: &[u32], pairs: &[(usize, u32)]) {
    let pairs = pairs
        .iter()
        .flat_map(|&(place, old)| [place as u32, old])
        .collect::<Vec<u32>>();
    let count = pairs.len() as u32 / 2;
    let (answer, table, list) = repaired(worn, pairs.len() + 3);
    assert_eq!(answer, (0, count), "{}", shown(0, worn, &pairs));
    assert!(table == sound, "{}", shown(0, worn, &table));
    assert_eq!(list[..pairs.len()], pairs);
    assert_eq!(list[pairs.len()..], [UNTOUCHED; 3]);
    assert_eq!(check_table(&table), 0);
    let just_enough = repaired(worn, pairs.len());
    assert!(just_enough == ((0, count), sound.to_vec(), pairs.clone()));
    for space in 0..pairs.len() {
        is_refused(worn, space, 34);
    }
    let mut back = table;
    undo(&mut back, &pairs);
    assert!(back == worn);
}

fn is_refused(worn: &[u32], space: usize, code: u32) {
    let refused = ((code, 0), worn.to_vec(), vec![UNTOUCHED; space]);
    assert!(
        repaired(worn, space) == refused,
        "{}",
        shown(0, worn, &[code])
    );
}

/// Table T with two messages and a lost count in endpoint 0.
fn busy_table() -> Vec<u32> {
    table_with(&[
        (place::WAITING_0, 0x5000_0002),
        (place::LOST_0, 0x6000_0007),
        (place::SLOTS_0, 0xF000_0005),
        (place::SLOTS_0 + 1, 0xF000_0000),
    ])
}

#[test]
fn a_sound_table_stays_and_its_list_is_empty() {
    is_repaired(&TABLE_T, &TABLE_T, &[]);
    is_repaired(&busy_table(), &busy_table(), &[]);
    for (n, m) in [(1, 0), (1, 32), (16, 0), (16, 32)] {
        is_repaired(&bare_table(n, m), &bare_table(n, m), &[]);
    }
    for seed in 0..200 {
        let table = table(&mut Rng::new(seed), 16, 32);
        is_repaired(&table, &table, &[]);
    }
}

#[test]
fn a_broken_rights_word_becomes_the_empty_set() {
    let last = place::rights(2, 2);
    for at in [1, place::rights(1, 2), last] {
        for bit in 4..32 {
            let broken = TABLE_T[at] ^ (1 << bit);
            let sound = table_with(&[(at, NO_RIGHTS)]);
            is_repaired(&table_with(&[(at, broken)]), &sound, &[(at, broken)]);
        }
    }
    for set in 0..16 {
        let table = table_with(&[(last, NO_RIGHTS | set)]);
        is_repaired(&table, &table, &[]);
    }
}

/// Each word beside the broken one that must become another is told too, and those
/// that were right already are not.
#[test]
fn an_endpoint_with_a_broken_word_is_emptied() {
    let busy = busy_table();
    let mut sound = busy.clone();
    sound[place::WAITING_0..place::WAITING_0 + 10].copy_from_slice(&EMPTY);
    let altered = [place::WAITING_0, place::LOST_0, place::SLOTS_0];
    for (at, broken) in [
        (place::WAITING_0, 0x5000_0003), // above the capacity
        (place::WAITING_0, 0x5FFF_FFFF),
        (place::WAITING_0, 0x4000_0002),
        (place::LOST_0, 0x7000_0007),
        (place::LOST_0, 0xF000_0000),
        (place::SLOTS_0, 0xE000_0005),
        (place::SLOTS_0, 0),
    ] {
        let mut worn = busy.clone();
        worn[at] = broken;
        is_repaired(&worn, &sound, &told(&worn, &altered));
    }
    for at in place::SLOTS_0 + 1..place::SLOTS_0 + 8 {
        let mut worn = busy.clone();
        worn[at] = 0xD000_0000;
        is_repaired(&worn, &sound, &told(&worn, &[&altered[..], &[at]].concat()));
    }
    // A message past the waiting count, which itself may be 0 already.
    let mut worn = busy.clone();
    worn[place::WAITING_0] = 0x5000_0000;
    is_repaired(&worn, &sound, &told(&worn, &altered[1..]));
}

/// The pairs that tell of some places of a table.
fn told(table: &[u32], places: &[usize]) -> Vec<(usize, u32)> {
    places.iter().map(|&at| (at, table[at])).collect()
}

#[test]
fn every_queue_word_that_is_wrong_empties_its_endpoint_alone() {
    // Endpoint 1 is empty already, so that only the broken word is altered.
    for (at, right) in TABLE_T.iter().enumerate().skip(place::WAITING_1) {
        for bit in 28..32 {
            let broken = right ^ (1 << bit);
            let worn = table_with(&[(at, broken)]);
            is_repaired(&worn, &TABLE_T, &[(at, broken)]);
        }
    }
    let mut worn = busy_table();
    worn[place::LOST_1] = 1;
    is_repaired(&worn, &busy_table(), &[(place::LOST_1, 1)]);
    // Any lost count is right, and so is any message that waits.
    for (at, word) in [
        (place::LOST_0, 0x6FFF_FFFF),
        (place::SLOTS_0, 0xFFFF_FFFF),
        (place::SLOTS_0 + 1, 0xF123_4567),
    ] {
        let mut other = busy_table();
        other[at] = word;
        is_repaired(&other, &other, &[]);
    }
}

#[test]
fn all_broken_words_are_told_lowest_place_first() {
    let places = [place::rights(0, 1), place::rights(2, 0), place::SLOTS_1 + 3];
    let worn = table_with(&places.map(|at| (at, 0)));
    let sound = table_with(&[(place::rights(0, 1), NO_RIGHTS)]);
    is_repaired(&worn, &sound, &places.map(|at| (at, 0)));
}

/// All words of the largest table that can be altered at once.
#[test]
fn every_word_of_the_largest_table_can_be_altered() {
    let sound = bare_table(16, 32);
    let mut worn = sound.clone();
    worn[1..257].fill(0);
    for e in 0..32 {
        worn[257 + 12 * e + 2..257 + 12 * e + 12].fill(u32::MAX);
    }
    let pairs: Vec<(usize, u32)> = (0..641)
        .filter(|&at| worn[at] != sound[at])
        .map(|at| (at, worn[at]))
        .collect();
    assert_eq!(pairs.len(), 256 + 320);
    is_repaired(&worn, &sound, &pairs);
}

#[test]
fn code_33_header_length_name_or_info() {
    let refused = |table: &[u32]| {
        for space in [0, 1, 2, 100] {
            is_refused(table, space, 33);
        }
    };
    refused(&[]);
    refused(&TABLE_T[..33]);
    refused(&TABLE_T[..1]);
    refused(&[&TABLE_T[..], &[0xF000_0000]].concat());
    for (at, broken) in [
        (0, 0x0000_0302),
        (0, 0x1001_0302),
        (0, 0x1000_0002),
        (0, 0x1000_1102),
        (0, 0x1000_0321),
        (0, 0x1000_0303),
        (place::NAME_1, 0x3000_0000),
        (place::NAME_1, 0x2000_0012),
        (place::NAME_1, 0x3000_0011), // as endpoint 0 has
        (place::INFO_1, 0x5000_0201),
        (place::INFO_1, 0x4001_0201),
        (place::INFO_1, 0x4000_0301),
        (place::INFO_1, 0x4000_0200),
        (place::INFO_1, 0x4000_0209),
    ] {
        refused(&table_with(&[(at, broken)]));
        // Before 34 too, whatever else is broken.
        refused(&table_with(&[(at, broken), (1, 0), (place::LOST_0, 0)]));
    }
}

#[test]
fn an_undo_takes_the_pairs_alone() {
    let mut table = TABLE_T.to_vec();
    undo(&mut table, &[]);
    assert_eq!(table, TABLE_T);
    undo(&mut table, &[33, 7, 34, 8, u32::MAX, 9, 0]);
    assert_eq!(table, table_with(&[(33, 7)]));
}

/// What a repair must leave, none where it is 33, by asking the check what it says of
/// one rights word, or of one queue, in a table that has nothing else.
fn expected(worn: &[u32]) -> Option<Vec<u32>> {
    if matches!(check_table(worn), 2 | 3) {
        return None;
    }
    let n = domains(worn);
    let queues = (1 + n * n..worn.len()).step_by(12).map(|at| at + 2);
    let mut bare = worn.to_vec();
    bare[1..1 + n * n].fill(NO_RIGHTS);
    for at in queues.clone() {
        bare[at..at + 10].copy_from_slice(&EMPTY);
    }
    if check_table(&bare) != 0 {
        return None;
    }
    let mut sound = bare.clone();
    let each_right = (1..1 + n * n).map(|at| at..at + 1);
    let each_queue = queues.map(|at| at..at + 10);
    for part in each_right.chain(each_queue) {
        let mut with_it = bare.clone();
        with_it[part.clone()].copy_from_slice(&worn[part.clone()]);
        if check_table(&with_it) == 0 {
            sound[part.clone()].copy_from_slice(&worn[part]);
        }
    }
    Some(sound)
}

/// How often each answer was met, and repairs that emptied a queue and a rights word.
#[derive(Default, Debug)]
struct Met {
    untouched: usize,
    repaired: usize,
    code_33: usize,
    code_34: usize,
    rights_taken: usize,
    queues_emptied: usize,
}

/// The repair of a case against what must come of it.
fn check_case(seed: u64, case: &RepairCase, met: &mut Met) {
    let text = shown(seed, &case.table, &case.list);
    let (mut table, mut list) = (case.table.clone(), case.list.clone());
    let answer = repair(&mut table, &mut list);
    let Some(sound) = expected(&case.table) else {
        met.code_33 += 1;
        assert_eq!(answer, (33, 0), "{text}");
        assert!(table == case.table && list == case.list, "{text}");
        return;
    };
    let altered: Vec<usize> = (0..sound.len())
        .filter(|&at| sound[at] != case.table[at])
        .collect();
    let needed = 2 * altered.len();
    if case.list.len() < needed {
        met.code_34 += 1;
        assert_eq!(answer, (34, 0), "{text}");
        assert!(table == case.table && list == case.list, "{text}");
        return;
    }
    assert_eq!(answer, (0, altered.len() as u32), "{text}");
    assert!(table == sound && check_table(&table) == 0, "{text}");
    for (&at, pair) in altered.iter().zip(list.chunks(2)) {
        assert_eq!(pair, [at as u32, case.table[at]], "{text}");
    }
    assert!(list[needed..] == case.list[needed..], "{text}");
    let mut back = table;
    undo(&mut back, &list[..needed]);
    assert!(back == case.table, "{text}");
    let rights_end = 1 + domains(&sound).pow(2);
    met.untouched += usize::from(altered.is_empty());
    met.repaired += usize::from(!altered.is_empty());
    met.rights_taken += usize::from(altered.iter().any(|&at| at < rights_end));
    met.queues_emptied += usize::from(altered.iter().any(|&at| at >= rights_end));
}

#[test]
fn worn_tables_are_repaired() {
    let mut met = Met::default();
    for seed in 0..1500 {
        check_case(seed, &repair_case(&mut Rng::new(seed), 6, 5), &mut met);
    }
    for seed in 0..20 {
        check_case(seed, &repair_case(&mut Rng::new(seed), 16, 32), &mut met);
    }
    assert!(met.untouched > 100 && met.repaired > 500, "{met:?}");
    assert!(met.code_33 > 250 && met.code_34 > 150, "{met:?}");
    assert!(met.rights_taken > 300, "{met:?}");
    assert!(met.queues_emptied > 300, "{met:?}");
}

/// Each bit of a table by itself.
#[test]
fn any_one_bit_flipped() {
    let start = table_of(&mut Rng::new(3), 3, 2);
    let mut met = Met::default();
    for bit in 0..32 * start.len() {
        let mut table = start.clone();
        table[bit / 32] ^= 1 << (bit % 32);
        let list = vec![UNTOUCHED; 30];
        check_case(bit as u64, &RepairCase { table, list }, &mut met);
    }
    assert!(met.untouched > 50 && met.repaired > 300, "{met:?}");
    assert!(met.code_33 > 50, "{met:?}");
    for seed in 0..300 {
        let rng = &mut Rng::new(seed);
        let start = table(rng, 6, 5);
        let mut flipped = start.clone();
        flip_one_bit(rng, &mut flipped);
        let flips = |at: usize| (start[at] ^ flipped[at]).count_ones();
        assert_eq!((0..start.len()).map(flips).sum::<u32>(), 1);
    }
}

/// No right is added: what a domain has after a repair it had in the worn table, and
/// what is repaired once stays.
#[test]
fn no_right_is_added_and_a_second_repair_alters_nothing() {
    for seed in 0..800 {
        let worn = worn_table(&mut Rng::new(seed), 6, 5);
        let ((code, _), sound, _) = repaired(&worn, 2 * worn.len());
        if code == 0 {
            let n = domains(&sound);
            let added = |at: usize| sound[at] & 15 & !worn[at];
            assert!((1..1 + n * n).all(|at| added(at) == 0), "seed {seed}");
            assert_eq!(repaired(&sound, 0), ((0, 0), sound.clone(), vec![]));
        }
    }
}

#[test]
fn a_damaged_frame_is_refused() {
    for seed in 0..800 {
        let rng = &mut Rng::new(seed);
        let mut table = table(rng, 6, 5);
        damage_frame(rng, &mut table);
        is_refused(&table, 2 * table.len(), 33);
    }
}
