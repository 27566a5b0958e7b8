//! List L of document 01 with its printed output, and the edges P1 to P12, each
//! on table T, as document 02 has altered them.

use crate::support::{code, codes, place, run_from, table_with, UNTOUCHED};
use reference::example::{LIST_L, PRINTED, TABLE_T};
use reference::words::to_bytes;
use reference::{check_bytes, check_table, cut, linerun, purge, run};

fn printed(table: &[u32], list: &[u32]) -> String {
    let mut input = to_bytes(&[table.len() as u32]);
    input.extend(to_bytes(table));
    input.extend(to_bytes(list));
    String::from_utf8(linerun(&input)).unwrap()
}

#[test]
fn list_l_is_printed_byte_for_byte() {
    assert_eq!(printed(&TABLE_T, &LIST_L), PRINTED);
}

#[test]
fn list_l_leaves_this_table() {
    let left = run_from(&TABLE_T, &LIST_L).table;
    let expected = table_with(&[
        (place::rights(0, 2), 0x2000_0001),
        (place::LOST_1, 0x6000_0001),
    ]);
    assert_eq!(left, expected);
}

#[test]
fn p1_empty_list() {
    let ran = run_from(&TABLE_T, &[]);
    assert_eq!((ran.code, ran.count), (0, 0));
    assert_eq!(ran.table, TABLE_T);
    assert_eq!(printed(&TABLE_T, &[]), "calls 0 code 0\n");
}

#[test]
fn p2_answer_space() {
    let mut table = TABLE_T;
    assert_eq!(run(&mut table, &LIST_L, &mut [0; 27]), (0, 9));

    let mut table = TABLE_T;
    let mut answers = [UNTOUCHED; 26];
    assert_eq!(run(&mut table, &LIST_L, &mut answers), (6, 0));
    assert_eq!((table, answers), (TABLE_T, [UNTOUCHED; 26]));
}

/// A table that the entry, the check over words and over bytes, and the program
/// all refuse with a code.
fn refused(table: &[u32], code: u32) {
    assert_eq!(check_table(table), code);
    assert_eq!(check_bytes(&to_bytes(table)), code);
    let ran = run_from(table, &LIST_L);
    assert_eq!((ran.code, ran.count), (code, 0));
    assert_eq!(ran.table, table);
    assert!(ran.answers.iter().all(|&word| word == UNTOUCHED));
    assert_eq!(printed(table, &LIST_L), format!("calls 0 code {code}\n"));
}

#[test]
fn p3_a_word_short() {
    refused(&TABLE_T[..33], 3);
}

#[test]
fn p4_seventeen_domains() {
    refused(&table_with(&[(0, 0x1000_1101)]), 2);
}

#[test]
fn p5_no_domain() {
    refused(&table_with(&[(0, 0x1000_0002)]), 2);
}

#[test]
fn p6_last_rights_word() {
    refused(&table_with(&[(9, 0x2000_0010)]), 4);
}

#[test]
fn p7_waiting_above_capacity() {
    refused(&table_with(&[(place::WAITING_1, 0x5000_0002)]), 5);
}

#[test]
fn p8_send_without_second_word() {
    assert_eq!(code(&TABLE_T, &[0x2000_0100]), 14);
    let mut list = LIST_L.to_vec();
    list.push(0x2000_0100);
    assert_eq!(codes(&TABLE_T, &list)[9], 14);
}

#[test]
fn p9_unknown_caller() {
    assert_eq!(code(&TABLE_T, &[0x50C0_0000]), 12);
}

#[test]
fn p10_two_rights_removed_at_once() {
    let ran = run_from(&TABLE_T, &[0x7042_0003]);
    let expected = table_with(&[(place::rights(1, 2), 0x2000_0004)]);
    assert_eq!(ran.table, expected);
    assert_eq!(codes(&TABLE_T, &[0x7042_0003, 0x7042_0003]), [0, 22]);
}

#[test]
fn p11_remove_removed() {
    let ran = run_from(&TABLE_T, &[0x7042_0004]);
    let expected = table_with(&[(place::rights(1, 2), 0x2000_0003)]);
    assert_eq!(ran.table, expected);
    assert_eq!(codes(&TABLE_T, &[0x7042_0004, 0x7042_0004]), [0, 22]);
}

#[test]
fn p12_struck_calls_of_list_l() {
    let kept = purge(&TABLE_T, &cut(&LIST_L), 1);
    let struck: Vec<usize> = (0..9).filter(|&i| !kept[i]).collect();
    assert_eq!(struck, [4, 5, 6, 8]);
}
