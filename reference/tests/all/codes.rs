//! Each code on both sides of its condition: cases where it is answered, and the
//! nearest ones where it isn't. Code 7 is in `linerun`.

use crate::support::{bare_table, code, codes, place, run_from, table_with, UNTOUCHED};
use reference::calls::Call;
use reference::example::{LIST_L, TABLE_T};
use reference::generate::call_word;
use reference::table::right;
use reference::words::to_bytes;
use reference::{check_bytes, check_table, run};

/// A word of kind 15: a second word, or a stray.
const SECOND: u32 = 0xF000_0011;

/// Asserts the check's answer over words and over bytes.
fn checked(table: &[u32], code: u32) {
    assert_eq!(check_table(table), code);
    assert_eq!(check_bytes(&to_bytes(table)), code);
}

/// Table T with one other word.
fn checked_with(place: usize, word: u32, code: u32) {
    checked(&table_with(&[(place, word)]), code);
}

#[test]
fn code_1_list_too_long() {
    let word = 0x5000_0000;
    let ran = run_from(&TABLE_T, &[word; 4096]);
    assert_eq!((ran.code, ran.count), (0, 4096));
    let ran = run_from(&TABLE_T, &[word; 4097]);
    assert_eq!((ran.code, ran.count), (1, 0));
    // Words are counted, not calls, and the table isn't looked at yet.
    let ran = run_from(&TABLE_T, &[0x2000_0000, SECOND].repeat(2049));
    assert_eq!((ran.code, ran.count), (1, 0));
    assert_eq!(run_from(&[], &[word; 4097]).code, 1);
    assert_eq!(run_from(&[], &[word; 4096]).code, 2);
}

#[test]
fn code_2_header() {
    checked(&[], 2);
    checked_with(0, 0x2000_0302, 2);
    checked_with(0, 0x1001_0302, 2);
    checked_with(0, 0x1800_0302, 2);
    for n in [1, 2, 15, 16] {
        checked(&bare_table(n, 0), 0);
    }
    for m in [1, 31, 32] {
        checked(&bare_table(16, m), 0);
    }
    checked(&bare_table(0, 0), 2);
    checked(&bare_table(17, 0), 2);
    checked(&bare_table(1, 33), 2);
    checked(&bare_table(255, 0), 2);
    assert_eq!(bare_table(16, 32).len(), 641);
}

#[test]
fn code_2_bytes() {
    let bytes = to_bytes(&TABLE_T);
    for length in 0..4 {
        assert_eq!(check_bytes(&bytes[..length]), 2);
    }
    assert_eq!(check_bytes(&bytes[..4]), 3);
}

#[test]
fn code_3_length() {
    checked(&TABLE_T, 0);
    checked(&TABLE_T[..33], 3);
    checked(&TABLE_T[..1], 3);
    let mut longer = TABLE_T.to_vec();
    longer.push(0xF000_0000);
    checked(&longer, 3);
    checked_with(0, 0x1000_0301, 3);
    checked_with(0, 0x1000_0202, 3);
    // 3 is before 4 and 5, after 2.
    let broken = table_with(&[(1, 0), (place::NAME_1, 0)]);
    checked(&broken[..33], 3);
    checked(&table_with(&[(0, 0)])[..33], 2);
}

#[test]
fn code_3_bytes() {
    let mut bytes = to_bytes(&TABLE_T);
    assert_eq!(check_bytes(&bytes), 0);
    for length in [4, 5, 133, 134, 135] {
        assert_eq!(check_bytes(&bytes[..length]), 3);
    }
    bytes.push(0);
    assert_eq!(check_bytes(&bytes), 3);
}

#[test]
fn code_4_rights_words() {
    for place in 1..=9 {
        for good in [0x2000_0000, 0x2000_0008, 0x2000_000F] {
            checked_with(place, good, 0);
        }
        for bad in [0x2000_0010, 0x2800_0000, 0x3000_0000, 0, 0x6000_0000] {
            checked_with(place, bad, 4);
        }
    }
    checked(&table_with(&[(9, 0x2000_0010), (10, 0x3000_0000)]), 4);
    checked_with(10, 0x3000_0000, 5);
}

#[test]
fn code_5_name() {
    checked_with(place::NAME_1, 0x3000_0000, 5);
    checked_with(place::NAME_1, 0x3000_0001, 0);
    checked_with(place::NAME_1, 0x3FFF_FFFF, 0);
    checked_with(place::NAME_1, 0x3000_0011, 5);
    checked_with(place::NAME_1, 0x3000_0013, 0);
    checked_with(place::NAME_1, 0x2000_0012, 5);
    // Any two names, not only neighbours.
    let mut table = bare_table(1, 32);
    table[2 + 12 * 31] = 0x3000_0001;
    checked(&table, 5);
    table[2 + 12 * 31] = 0x3000_0020;
    checked(&table, 0);
}

#[test]
fn code_5_info() {
    checked_with(place::INFO_1, 0x5000_0201, 5);
    checked_with(place::INFO_1, 0x4001_0201, 5);
    checked_with(place::INFO_1, 0x4800_0201, 5);
    checked_with(place::INFO_1, 0x4000_0301, 5);
    checked_with(place::INFO_1, 0x4000_0001, 0);
    checked_with(place::INFO_1, 0x4000_0200, 5);
    checked_with(place::INFO_1, 0x4000_0208, 0);
    checked_with(place::INFO_1, 0x4000_0209, 5);
}

#[test]
fn code_5_waiting_and_lost() {
    checked_with(place::WAITING_1, 0x5000_0001, 0);
    checked_with(place::WAITING_1, 0x5000_0002, 5);
    checked_with(place::WAITING_1, 0x5800_0000, 5);
    checked_with(place::WAITING_1, 0x4000_0000, 5);
    checked_with(place::WAITING_0, 0x5000_0002, 0);
    checked_with(place::WAITING_0, 0x5000_0003, 5);
    checked_with(place::LOST_1, 0x6FFF_FFFF, 0);
    checked_with(place::LOST_1, 0x7000_0000, 5);
    checked_with(place::LOST_1, 0x5000_0000, 5);
}

#[test]
fn code_5_slots() {
    for slot in 0..8 {
        checked_with(place::SLOTS_1 + slot, 0xF000_0001, 5);
        checked_with(place::SLOTS_1 + slot, 0xE000_0000, 5);
    }
    let one = (place::WAITING_1, 0x5000_0001);
    checked(&table_with(&[one, (place::SLOTS_1, 0xFFFF_FFFF)]), 0);
    checked(&table_with(&[one, (place::SLOTS_1, 0xE000_0000)]), 5);
    checked(&table_with(&[one, (place::SLOTS_1 + 1, 0xF000_0001)]), 5);
}

#[test]
fn code_6_answer_space() {
    let list = [0x5000_0000, 0x2000_0000, SECOND, SECOND];
    for (space, expected) in [(9, (0, 3)), (8, (6, 0)), (0, (6, 0)), (12, (0, 3))] {
        let mut table = TABLE_T;
        let mut answers = vec![UNTOUCHED; space];
        assert_eq!(run(&mut table, &list, &mut answers), expected);
        let beyond = if expected.0 == 0 { 9 } else { 0 };
        assert!(answers[beyond..].iter().all(|&word| word == UNTOUCHED));
        assert_eq!(table == TABLE_T, expected.0 != 0);
    }
    // The table's codes come first; an empty list needs no space.
    assert_eq!(run(&mut [], &list, &mut []), (2, 0));
    assert_eq!(run(&mut TABLE_T.to_vec(), &[], &mut []), (0, 0));
}

#[test]
fn code_10_stray() {
    for stray in [0xF000_0009, 0xFFFF_FFFF, 0xF0C0_0000] {
        assert_eq!(code(&TABLE_T, &[stray]), 10);
        assert_eq!(code(&TABLE_T, &[0x1000_0000, stray]), 15);
        assert_eq!(codes(&TABLE_T, &[0x2000_0000, stray, stray]), [0, 10]);
        assert_eq!(codes(&TABLE_T, &[0x3000_0000, stray]), [18, 10]);
    }
    // Its caller is 0 whatever its bits hold.
    let ran = run_from(&TABLE_T, &[0xFFFF_FFFF]);
    assert_eq!(ran.answers[..3], [0xF000_000A, 0, 0]);
}

#[test]
fn code_11_unknown_kind() {
    for kind in 0..16 {
        let unknown = kind == 0 || (9..=14).contains(&kind);
        let first = call_word(kind, 1, 0, 0, 0);
        assert_eq!(code(&TABLE_T, &[first]) == 11, unknown, "kind {kind}");
        // 11 is before 12 and 13; the caller is answered as found.
        let first = call_word(kind, 63, 63, 255, 255);
        assert_eq!(code(&TABLE_T, &[first]) == 11, unknown, "kind {kind}");
        if unknown {
            let answer = run_from(&TABLE_T, &[first]).answers;
            assert_eq!(answer[..3], [call_word(kind, 63, 0, 0, 11), 0, 0]);
        }
    }
}

#[test]
fn code_12_unknown_caller() {
    for kind in 1..=8 {
        for caller in [3, 4, 63] {
            // Before 13 and 14 too.
            let first = call_word(kind, caller, 0, 0, 0);
            assert_eq!(code(&TABLE_T, &[first]), 12);
            let first = call_word(kind, caller, 63, 255, 255);
            assert_eq!(code(&TABLE_T, &[first]), 12);
            let answer = run_from(&TABLE_T, &[first]).answers;
            assert_eq!(answer[..3], [call_word(kind, caller, 0, 0, 12), 0, 0]);
        }
        assert_ne!(code(&TABLE_T, &[call_word(kind, 2, 0, 0, 0)]), 12);
    }
    assert_eq!(code(&bare_table(16, 0), &[0x53C0_0000]), 0);
    assert_eq!(code(&bare_table(16, 0), &[0x5400_0000]), 12);
}

/// Whether fields A, B and C of a call of some kind are unused.
fn unused_fields(kind: u32) -> [bool; 3] {
    match kind {
        1 | 4 | 5 => [true, true, true],
        2 | 3 => [true, false, true],
        6 | 8 => [false, false, false],
        _ => [false, true, false],
    }
}

#[test]
fn code_13_unused_field() {
    for kind in 1..=8 {
        for (field, unused) in unused_fields(kind).into_iter().enumerate() {
            let (low, high) = [(1 << 16, 1 << 21), (1 << 8, 1 << 15), (1, 1 << 7)][field];
            for bit in [low, high] {
                let first = call_word(kind, 0, 0, 0, 0) | bit;
                let list: &[u32] = if kind < 3 { &[first, SECOND] } else { &[first] };
                assert_eq!(code(&TABLE_T, list) == 13, unused, "{first:08X}");
                // 13 is before 14.
                assert_eq!(code(&TABLE_T, &[first]) == 13, unused, "{first:08X}");
            }
        }
    }
}

#[test]
fn code_14_no_second_word() {
    assert_eq!(code(&TABLE_T, &[0x1000_0000]), 14);
    assert_eq!(code(&TABLE_T, &[0x2000_0000]), 14);
    assert_eq!(code(&TABLE_T, &[0x1000_0000, SECOND]), 0);
    assert_eq!(code(&TABLE_T, &[0x2000_0000, SECOND]), 0);
    // A word of another kind isn't a second word, nor is one further on.
    assert_eq!(codes(&TABLE_T, &[0x2000_0000, 0x5000_0000]), [14, 0]);
    let list = [0x2000_0000, 0x5000_0000, SECOND];
    assert_eq!(codes(&TABLE_T, &list), [14, 0, 10]);
    assert_eq!(
        codes(&TABLE_T, &[0x1000_0000, 0x2000_0000, SECOND]),
        [14, 0]
    );
    // 14 is before 16.
    assert_eq!(code(&TABLE_T, &[0x2000_FF00]), 14);
}

#[test]
fn code_15_no_such_name() {
    for (name, expected) in [(0x10, 15), (0x11, 0), (0x12, 0), (0x13, 15), (0, 15)] {
        let second = 0xF000_0000 | name;
        assert_eq!(code(&TABLE_T, &[0x1080_0000, second]), expected);
    }
    // All 28 bits of a name count.
    for bit in 0..28 {
        let second = 0xF000_0012 ^ (1 << bit);
        let expected = if second == 0xF000_0011 { 0 } else { 15 };
        assert_eq!(code(&TABLE_T, &[0x1080_0000, second]), expected);
    }
    assert_eq!(code(&bare_table(1, 0), &[0x1000_0000, 0xF000_0001]), 15);
    assert_eq!(code(&bare_table(1, 1), &[0x1000_0000, 0xF000_0001]), 0);
}

#[test]
fn code_16_no_such_endpoint() {
    for (endpoint, expected) in [(1, false), (2, true), (3, true), (255, true)] {
        let send = [call_word(2, 1, 0, endpoint, 0), SECOND];
        assert_eq!(code(&TABLE_T, &send) == 16, expected);
        let receive = [call_word(3, 2, 0, endpoint, 0)];
        assert_eq!(code(&TABLE_T, &receive) == 16, expected);
    }
    assert_eq!(code(&bare_table(1, 0), &[0x3000_0000]), 16);
    assert_eq!(code(&bare_table(1, 32), &[0x3000_1F00]), 19);
    assert_eq!(code(&bare_table(1, 32), &[0x3000_2000]), 16);
}

#[test]
fn code_17_no_send_right() {
    // Endpoint 1 belongs to domain 2; domain 0 sends.
    for set in 0..16 {
        let table = table_with(&[(place::rights(0, 2), 0x2000_0000 | set)]);
        let expected = if set & right::SEND == 0 { 17 } else { 0 };
        assert_eq!(code(&table, &[0x2000_0100, SECOND]), expected);
    }
    // The owner itself needs SEND on itself, like anybody else.
    for set in 0..16 {
        let table = table_with(&[(place::rights(2, 2), 0x2000_0000 | set)]);
        let expected = if set & right::SEND == 0 { 17 } else { 0 };
        assert_eq!(code(&table, &[0x2080_0100, SECOND]), expected);
    }
    // A right that the owner has on the caller, or that the caller has on another,
    // is none.
    let backwards = table_with(&[(place::rights(2, 0), 0x2000_0007)]);
    assert_eq!(code(&backwards, &[0x2000_0100, SECOND]), 17);
    // A full queue is no reason to answer otherwise, before or after 17.
    let full = table_with(&[(place::WAITING_1, 0x5000_0001)]);
    assert_eq!(code(&full, &[0x2000_0100, SECOND]), 17);
    assert_eq!(code(&full, &[0x2040_0100, SECOND]), 0);
}

#[test]
fn code_18_not_the_owner() {
    // Domain 1 has every right on domain 2, and still can't receive for it.
    for waiting in [0x5000_0000, 0x5000_0001] {
        let table = table_with(&[(place::WAITING_1, waiting)]);
        assert_eq!(code(&table, &[0x3040_0100]), 18);
        assert_eq!(code(&table, &[0x3000_0100]), 18);
        assert_ne!(code(&table, &[0x3080_0100]), 18);
    }
}

#[test]
fn code_19_nothing_waits() {
    assert_eq!(code(&TABLE_T, &[0x3080_0100]), 19);
    let table = table_with(&[(place::WAITING_1, 0x5000_0001)]);
    assert_eq!(codes(&table, &[0x3080_0100, 0x3080_0100]), [0, 19]);
}

#[test]
fn code_20_unknown_domain_named() {
    for (target, other, expected) in [
        (2, 2, false),
        (3, 0, true),
        (0, 3, true),
        (63, 0, true),
        (0, 255, true),
    ] {
        // C is 0, which would be 21 and isn't looked at yet.
        for kind in [6, 8] {
            let first = call_word(kind, 1, target, other, 0);
            assert_eq!(code(&TABLE_T, &[first]) == 20, expected);
        }
    }
    for (target, expected) in [(2, false), (3, true), (63, true)] {
        let remove = call_word(7, 1, target, 0, 0);
        assert_eq!(code(&TABLE_T, &[remove]) == 20, expected);
    }
}

#[test]
fn code_21_rights_named() {
    for c in 0..256 {
        // Domain 0 has no right on itself, so whatever passes 21 is 22.
        let expected = if (1..=15).contains(&c) { 22 } else { 21 };
        for kind in [6, 7, 8] {
            let call = call_word(kind, 0, 0, 0, c);
            assert_eq!(code(&TABLE_T, &[call]), expected, "kind {kind} {c}");
        }
    }
}

#[test]
fn code_22_rights_held() {
    for held in 0..16 {
        let table = table_with(&[(place::rights(1, 2), 0x2000_0000 | held)]);
        for c in 1..16 {
            let code_with = |kind, other| code(&table, &[call_word(kind, 1, 2, other, c)]);
            let expected = |needed| if held & needed == needed { 0 } else { 22 };
            assert_eq!(code_with(6, 0), expected(right::GRANT | c), "{held} {c}");
            assert_eq!(code_with(7, 0), expected(right::REMOVE | c), "{held} {c}");
            // A revoke needs none of the rights that it takes back.
            assert_eq!(code_with(8, 0), expected(right::REVOKE), "{held} {c}");
            assert_eq!(code_with(8, 1), expected(right::REVOKE), "{held} {c}");
        }
    }
}

/// A grant and a revoke by domain 1 of SEND on domain 2, to or from another.
fn grant_and_revoke(other: usize) -> [u32; 2] {
    [call_word(6, 1, 2, other, 1), call_word(8, 1, 2, other, 1)]
}

#[test]
fn code_23_no_right_on_the_recipient_or_holder() {
    let all = (place::rights(1, 2), 0x2000_000F);
    for set in 0..16 {
        let table = table_with(&[all, (place::rights(1, 0), 0x2000_0000 | set)]);
        for first in grant_and_revoke(0) {
            let expected = if set == 0 { 23 } else { 0 };
            assert_eq!(code(&table, &[first]), expected);
        }
        // The other's right on the caller is none of the caller's.
        let table = table_with(&[
            all,
            (place::rights(1, 0), 0x2000_0000),
            (place::rights(0, 1), 0x2000_0000 | set),
        ]);
        for first in grant_and_revoke(0) {
            assert_eq!(code(&table, &[first]), 23);
        }
    }
    // Itself, without a right on itself; the target, on which it has some.
    for other in [1, 2] {
        for first in grant_and_revoke(other) {
            assert_eq!(code(&table_with(&[all]), &[first]), 0);
        }
    }
    // 22 is before 23.
    let table = table_with(&[
        (place::rights(1, 0), 0x2000_0000),
        (place::rights(1, 2), 0x2000_0001),
    ]);
    for first in grant_and_revoke(0) {
        assert_eq!(code(&table, &[first]), 22);
    }
}

#[test]
fn what_the_recipient_or_holder_has_is_no_refusal() {
    for has in 0..16 {
        let table = table_with(&[
            (place::rights(1, 2), 0x2000_000F),
            (place::rights(0, 2), 0x2000_0000 | has),
        ]);
        for first in grant_and_revoke(0) {
            assert_eq!(code(&table, &[first]), 0);
        }
    }
}

#[test]
fn the_cutting_looks_at_kinds_only() {
    let second = Some(SECOND);
    let one = |first| Call {
        first,
        second: None,
    };
    for kind in 0..16 {
        let first = call_word(kind, 63, 63, 255, 255);
        let list = [first, SECOND, SECOND];
        let expected = if kind == 1 || kind == 2 {
            vec![Call { first, second }, one(SECOND)]
        } else {
            vec![one(first), one(SECOND), one(SECOND)]
        };
        assert_eq!(reference::cut(&list), expected);
    }
    assert_eq!(reference::cut(&LIST_L).len(), 9);
    assert_eq!(reference::cut(&[]), []);
}
