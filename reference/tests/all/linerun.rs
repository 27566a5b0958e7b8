//! The program `linerun`: its codes 7 and 1 on both sides, their order, and what
//! it prints against what a run answers.

use reference::example::{LIST_L, PRINTED, TABLE_T};
use reference::generate::{linerun_input, Rng};
use reference::words::{from_bytes, to_bytes};
use reference::{cut, linerun, run};

/// An input: the length word, then the words of table and list.
fn input(length: u32, table: &[u32], list: &[u32]) -> Vec<u8> {
    let mut bytes = to_bytes(&[length]);
    bytes.extend(to_bytes(table));
    bytes.extend(to_bytes(list));
    bytes
}

fn printed(input: &[u8]) -> String {
    String::from_utf8(linerun(input)).unwrap()
}

/// The code that the first line shows; a refusal prints nothing else.
fn code(input: &[u8]) -> u32 {
    let text = printed(input);
    let first = text.lines().next().unwrap();
    let code = first.rsplit(' ').next().unwrap().parse().unwrap();
    if code != 0 {
        assert_eq!(text, format!("calls 0 code {code}\n"));
    }
    code
}

#[test]
fn code_7_under_four_bytes() {
    for length in 0..4 {
        assert_eq!(code(&vec![0; length]), 7);
    }
    // A length word 0 is an empty table.
    assert_eq!(code(&[0; 4]), 2);
}

#[test]
fn code_7_length_above_641() {
    let words = [0; 1000];
    assert_eq!(code(&input(641, &words, &[])), 2);
    assert_eq!(code(&input(642, &words, &[])), 7);
    assert_eq!(code(&input(0xFFFF_FFFF, &words, &[])), 7);
    // Before 1.
    assert_eq!(code(&input(642, &[0; 5000], &[])), 7);
}

#[test]
fn code_7_table_cut_short() {
    let whole = input(34, &TABLE_T, &[]);
    assert_eq!(code(&whole), 0);
    for cut_off in 1..=136 {
        assert_eq!(code(&whole[..whole.len() - cut_off]), 7);
    }
    assert_eq!(code(&input(35, &TABLE_T, &[])), 7);
    assert_eq!(code(&input(33, &TABLE_T, &[])), 3);
}

#[test]
fn code_7_bytes_left_over() {
    let mut bytes = input(34, &TABLE_T, &LIST_L);
    for left_over in 1..=3 {
        bytes.push(0xF0);
        assert_eq!(code(&bytes), 7, "{left_over} bytes");
    }
    bytes.push(0xF0);
    assert_eq!(code(&bytes), 0);
    // Before the table's codes.
    let mut bytes = input(34, &[0; 34], &LIST_L);
    assert_eq!(code(&bytes), 2);
    bytes.push(0);
    assert_eq!(code(&bytes), 7);
}

#[test]
fn code_1_list_word_4097() {
    let list = [0x5000_0000; 4098];
    assert_eq!(code(&input(34, &TABLE_T, &list[..4096])), 0);
    assert_eq!(code(&input(34, &TABLE_T, &list[..4097])), 1);
    assert_eq!(code(&input(34, &TABLE_T, &list)), 1);
    // Whatever is left over, and whatever is wrong with the table.
    let mut bytes = input(34, &TABLE_T, &list[..4096]);
    for left_over in 1..=3 {
        bytes.push(0);
        assert_eq!(code(&bytes), 7, "{left_over} bytes");
    }
    for more in 4..=7 {
        bytes.push(0);
        assert_eq!(code(&bytes), 1, "{more} bytes");
    }
    assert_eq!(code(&input(34, &[0; 34], &list[..4097])), 1);
    assert_eq!(code(&input(34, &[0; 34], &list[..4096])), 2);
    assert_eq!(code(&input(0, &[], &list[..4097])), 1);
}

#[test]
fn a_table_refused_prints_the_first_line_only() {
    for (place, word, expected) in [(0, 0, 2), (1, 0, 4), (10, 0, 5)] {
        let mut table = TABLE_T;
        table[place] = word;
        assert_eq!(code(&input(34, &table, &LIST_L)), expected);
    }
}

#[test]
fn list_l_through_the_program() {
    assert_eq!(printed(&input(34, &TABLE_T, &LIST_L)), PRINTED);
}

#[test]
fn numbers_are_decimal_and_whole() {
    let list = [0x1000_0000, 0xF000_0012, 0xEFFF_FFFF, 0x5040_0000];
    let expected = "calls 3 code 0\n\
                    call 0 caller 0 kind 1 code 0 data 1 0\n\
                    call 1 caller 63 kind 14 code 11 data 0 0\n\
                    call 2 caller 1 kind 5 code 0 data 1793 0\n";
    assert_eq!(printed(&input(34, &TABLE_T, &list)), expected);
}

/// The lines of an input that runs, made from the answers of a run.
fn expected_lines(bytes: &[u8]) -> Vec<String> {
    let words = from_bytes(bytes);
    let (table, list) = words[1..].split_at(words[0] as usize);
    let mut answers = vec![0; 3 * cut(list).len()];
    let (code, count) = run(&mut table.to_vec(), list, &mut answers);
    let mut lines = vec![format!("calls {count} code {code}")];
    for (i, answer) in answers.chunks(3).take(count as usize).enumerate() {
        let first = answer[0];
        let (kind, caller, code) = (first >> 28, first >> 22 & 63, first & 0xFFFF);
        let (x, y) = (answer[1], answer[2]);
        lines.push(format!(
            "call {i} caller {caller} kind {kind} code {code} data {x} {y}"
        ));
    }
    lines
}

#[test]
fn the_program_prints_what_a_run_answers() {
    let mut ran = 0;
    for seed in 0..600 {
        let bytes = linerun_input(&mut Rng::new(seed), 6, 6, 30);
        let text = printed(&bytes);
        let code = code(&bytes);
        if code != 1 && code != 7 {
            let lines: Vec<&str> = text.lines().collect();
            assert_eq!(lines, expected_lines(&bytes), "seed {seed}");
            assert!(text.ends_with('\n'));
            ran += usize::from(code == 0);
        }
    }
    assert!(ran > 200, "{ran} inputs ran");
}
