//! `balkwizu check` as it is used.

use line::trial::{worked_example, Trial};

const TOOL: Trial = Trial {
    program: env!("CARGO_BIN_EXE_balkwizu"),
    folder: env!("CARGO_TARGET_TMPDIR"),
};

fn in_examples(name: &str) -> String {
    format!("{}/examples/{name}", env!("CARGO_MANIFEST_DIR"))
}

/// The status and what is printed of a file.
fn checked(file: &str) -> (i32, String) {
    let (status, printed, complaint) = TOOL.ran(&["check", file]);
    assert_eq!(complaint, "");
    (status, printed)
}

#[test]
fn a_sound_line_passes() {
    let wanted = "table accepted: 4 domains, 4 endpoints, 65 words\nlist: 11 calls in 15 words\n";
    assert_eq!(checked(&in_examples("four.txt")), (0, wanted.to_string()));
    let line = "domain a\nendpoint e owner a capacity 1\ncalls\na receives from e\n";
    assert_eq!(checked(&TOOL.file("line.txt", line)).0, 0);
    let calls = in_examples("calls.txt");
    assert_eq!(
        checked(&calls),
        (0, "list: 9 calls in 12 words\n".to_string())
    );
    let of = ["check", &calls, "--table", &in_examples("worked.txt")];
    let (status, printed, _) = TOOL.ran(&of);
    assert_eq!(status, 0);
    assert!(
        printed.starts_with("table accepted: 3 domains"),
        "{printed}"
    );
}

#[test]
fn every_mistake_of_a_text_is_reported() {
    let text = "domain a\ndomain 7\nendpoint e owner b capacity 9\ncalls\na sends 5 to x\n";
    let file = TOOL.file("wrong.txt", text);
    let (status, printed) = checked(&file);
    assert_eq!(status, 1);
    let places = [
        "2, column 8",
        "3, column 18",
        "3, column 29",
        "5, column 14",
    ];
    let starts = places.map(|place| format!("{file}: line {place}: "));
    let lines = printed.lines().zip(&starts);
    assert!(
        lines.clone().all(|(line, start)| line.starts_with(start)),
        "{printed}"
    );
    assert_eq!(printed.lines().count(), 4);
    let words = TOOL.file("words.txt", "table 10000100 2000000\nlist 5000\n");
    assert_eq!(checked(&words).1.lines().count(), 2);
}

#[test]
fn a_refused_table_and_a_cut_input_are_reported_with_their_codes() {
    let (status, printed) = checked(&in_examples("damaged.txt"));
    assert_eq!(status, 1);
    let word = "table refused with 4 (a rights word breaks its layout): word 7, the rights of";
    assert!(printed.starts_with(word), "{printed}");
    assert!(printed.contains("\n  also with 5: word 55, "), "{printed}");
    let cut = TOOL.file("cut.bin", &worked_example()[..50]);
    let (status, printed) = checked(&cut);
    assert_eq!(status, 1);
    assert!(
        printed.starts_with(&format!("{cut} is refused with 7 (")),
        "{printed}"
    );
    let empty = TOOL.file("empty.bin", [0; 4]);
    let (status, printed) = checked(&empty);
    assert_eq!(status, 1);
    assert!(printed.starts_with("table refused with 2 ("), "{printed}");
}

/// 10 to 14 are wrong whatever ran before; other numbers that the table hasn't are warnings.
#[test]
fn calls_that_the_list_alone_refuses_are_reported() {
    let head = "domain a\nendpoint e owner a capacity 1\ncalls\n";
    let calls = "9 asks for its rights\na sends 5 to 7\nwords F0000009 90000000\n\
                 words 50000001 20000000\n";
    let (status, printed) = checked(&TOOL.file("calls.txt", format!("{head}{calls}")));
    assert_eq!(status, 1);
    let starts = [
        "table accepted: 1 domain, 1 endpoint, 14 words",
        "list: 6 calls in 7 words",
        "line 4, call 0 (domain 9 asks for its rights) is refused with 12: ",
        "line 6, call 2 (a stray word with content 9) is refused with 10: ",
        "line 6, call 3 (domain 0 (a) makes a call of unknown kind 9) is refused with 11: ",
        "line 7, call 4 (domain 0 (a) asks for its rights) is refused with 13: ",
        "line 7, call 5 (domain 0 (a) sends (no second word) to endpoint 0 (e)) is refused with 14",
        "warning: line 5, call 1 (domain 0 (a) sends 5 to endpoint 7): the table has no endpoint 7",
    ];
    let lines = printed.lines().zip(starts);
    assert!(
        lines.clone().all(|(line, start)| line.starts_with(start)),
        "{printed}"
    );
    assert_eq!(printed.lines().count(), starts.len(), "{printed}");
    let warned = TOOL.file("warned.txt", format!("{head}a sends 5 to 7\n"));
    assert_eq!(checked(&warned).0, 0);
    let many = TOOL.file("many.txt", "list F0000009*23\n");
    assert!(checked(&many).1.ends_with("\nand 3 calls refused more\n"));
}

#[test]
fn what_cannot_be_checked_ends_with_2() {
    let four = in_examples("four.txt");
    for line in [
        &["check"][..],
        &["check", "/no/such/file"],
        &["check", &four, "--table", &four],
        &["check", "-", "--table", "-"],
    ] {
        assert_eq!(TOOL.status(line), 2, "{line:?}");
    }
}
