//! Unused bits of two fields of one call: every number of the one field with every number of
//! the other; and every two bits of calls that are done.

use reference::calls::{Call, LIST_WORDS_MAX, LOOK_UP, MY_ENDPOINTS, MY_RIGHTS, RECEIVE, SEND};
use reference::generate::call_word;
use reference::table::right;
use reference::words::word;

use super::bits::{done, run_of};
use super::orders::{A_BITS, B_BITS, C_BITS};
use super::tables::Shape;
use super::{Tables, Take};

/// Where the fields A, B and C begin.
const A: u32 = B_BITS + C_BITS;
const B: u32 = C_BITS;
const C: u32 = 0;

/// The kinds that leave two fields unused or three.
const UNUSED: [(u32, &[(u32, u32)]); 5] = [
    (LOOK_UP, &[(A, A_BITS), (B, B_BITS), (C, C_BITS)]),
    (SEND, &[(A, A_BITS), (C, C_BITS)]),
    (RECEIVE, &[(A, A_BITS), (C, C_BITS)]),
    (MY_ENDPOINTS, &[(A, A_BITS), (B, B_BITS), (C, C_BITS)]),
    (MY_RIGHTS, &[(A, A_BITS), (B, B_BITS), (C, C_BITS)]),
];

/// The drill.
pub fn unused(tables: &Tables, take: &mut Take) {
    let table = Shape::new(2, 2).with_rights(|_, _| right::ALL).words();
    for (kind, fields) in UNUSED {
        for (number, &one) in fields.iter().enumerate() {
            for &other in &fields[number + 1..] {
                both(&table, kind, one, other, take);
            }
        }
    }
    for table in tables.few() {
        for call in done(table) {
            two_bits(table, call, take);
        }
    }
}

/// Calls of a kind with each number in one field and each in the other, as many in a list as
/// it may have.
fn both(table: &[u32], kind: u32, one: (u32, u32), other: (u32, u32), take: &mut Take) {
    let first = call_word(kind, 0, 0, 0, 0);
    let second = (kind <= SEND).then_some(word(15, 1));
    let mut list = Vec::new();
    for number in 0..1 << (one.1 + other.1) {
        let first =
            first | (number >> other.1) << one.0 | (number & ((1 << other.1) - 1)) << other.0;
        list.extend(Call { first, second }.words());
        if list.len() + 2 > LIST_WORDS_MAX {
            run_of(table, std::mem::take(&mut list), take);
        }
    }
    run_of(table, list, take);
}

/// A call with every two bits of its first word turned, and of its second.
fn two_bits(table: &[u32], call: Call, take: &mut Take) {
    for (low, high) in (0..32).flat_map(|high| (0..high).map(move |low| (low, high))) {
        let bits = 1 << low | 1 << high;
        let first = call.first ^ bits;
        run_of(table, Call { first, ..call }.words(), take);
    }
}
