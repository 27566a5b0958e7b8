//! The programs themselves: each prints what the library gives, and that of the
//! end-of-shift sheet answers an input that is held open as soon as its answer is known.

use std::io::{Read, Write};
use std::process::{Child, Command, Stdio};
use std::sync::mpsc;
use std::thread;
use std::time::Duration;

use reference::example::{LIST_L, TABLE_T};
use reference::words::to_bytes;
use reference::{linerun, totals};

/// Far longer than any answer takes.
const WAIT: Duration = Duration::from_secs(60);

const LINERUN: &str = env!("CARGO_BIN_EXE_linerun_reference");
const LINETOTALS: &str = env!("CARGO_BIN_EXE_linetotals_reference");

fn started(program: &str) -> Child {
    Command::new(program)
        .stdin(Stdio::piped())
        .stdout(Stdio::piped())
        .spawn()
        .expect("the program starts")
}

/// What a program prints for an input, which stays open until then where that is asked
/// for.
fn printed(program: &str, input: &[u8], held_open: bool) -> Vec<u8> {
    let mut program = started(program);
    let mut pipe = program.stdin.take().unwrap();
    pipe.write_all(input).unwrap();
    // A pipe that isn't held ends here.
    let held = held_open.then_some(pipe);
    let mut output = program.stdout.take().unwrap();
    let (tell, told) = mpsc::channel();
    thread::spawn(move || {
        let mut sheet = Vec::new();
        output.read_to_end(&mut sheet).unwrap();
        tell.send(sheet)
    });
    let sheet = told.recv_timeout(WAIT).expect("an answer");
    drop(held);
    assert!(program.wait().unwrap().success());
    sheet
}

fn input(table: &[u32], list: &[u32]) -> Vec<u8> {
    let lengths = [table.len() as u32, list.len() as u32];
    to_bytes(&[&lengths[..1], table, &lengths[1..], list].concat())
}

#[test]
fn an_input_that_ends() {
    let whole = input(&TABLE_T, &LIST_L);
    for length in [0, 3, 4, 140, 141, 144, whole.len() - 1, whole.len()] {
        let bytes = &whole[..length];
        let sheet = printed(LINETOTALS, bytes, false);
        assert_eq!(sheet, totals(bytes), "{length} bytes");
    }
}

#[test]
fn a_line() {
    let whole = to_bytes(&[&[34], &TABLE_T[..], &LIST_L].concat());
    for length in [0, 3, 4, 140, 141, whole.len() - 1, whole.len()] {
        let bytes = &whole[..length];
        let lines = printed(LINERUN, bytes, false);
        assert_eq!(lines, linerun(bytes), "{length} bytes");
    }
}

#[test]
fn an_input_held_open() {
    let mut broken = TABLE_T;
    broken[33] = 0;
    let too_long = to_bytes(&[&[34], &TABLE_T[..], &[4097]].concat());
    for bytes in [to_bytes(&[642]), input(&broken, &[]), too_long] {
        assert_eq!(printed(LINETOTALS, &bytes, true), totals(&bytes));
    }
}
