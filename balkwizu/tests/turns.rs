//! `balkwizu turns` as it is used.

use line::trial::Trial;

const TOOL: Trial = Trial {
    program: env!("CARGO_BIN_EXE_balkwizu"),
    folder: env!("CARGO_TARGET_TMPDIR"),
};

fn in_examples(name: &str) -> String {
    format!("{}/examples/{name}", env!("CARGO_MANIFEST_DIR"))
}

/// Each refusal and the two kinds of turn are met in the example, on its own table.
#[test]
fn the_example_of_turns_is_played() {
    let (status, printed, _) = TOOL.ran(&["turns", &in_examples("turns.txt")]);
    assert_eq!(status, 0);
    for part in [
        "line 7: turn 1 is idle: nothing is pending\n",
        "domain 0 (link) hands in 6 times: domain 0 (link) sends 67 to endpoint 1 (routes) (16 of",
        "domain 0 (link) is refused with 37 (",
        "domain 2 (chutes) is refused with 36 (",
        "domain 4 is refused with 35 (",
        "serves domain 0 (link) after a wait of 1 turn (pending calls: 8 of domain 0 (link), 1 of",
        "    domain 0 (link) sends 65 to endpoint 3 (belts): refused with 17: ",
        "turn 5 serves domain 3 (drives) after a wait of 4 turns",
        "    domain 3 (drives) receives from endpoint 3 (belts): message 49; 0 lost so far",
        "    domain 0 (link) sends 66 to endpoint 3 (belts): done\n",
        "  the next turn starts at domain 1 (loader)\n",
        "    domain 0 (link): 7, 4\n",
    ] {
        assert!(printed.contains(part), "{part}: {printed}");
    }
    assert!(printed.ends_with("they get the same answers and leave the same words.\n"));
}

#[test]
fn a_damaged_table_of_turns_is_reported_with_what_mends_it() {
    let damaged = in_examples("damaged.txt");
    let turns = TOOL.file("damaged-turns.txt", format!("table {damaged}\nturn\n"));
    let (status, printed, _) = TOOL.ran(&["turns", &turns]);
    assert_eq!(status, 1);
    assert!(printed.starts_with("table refused with 4 ("), "{printed}");
    let mend = format!(
        "`balkwizu repair {damaged} OUT` makes it fit again; without OUT it only says how\n"
    );
    assert!(printed.ends_with(&mend), "{printed}");
    let refused = TOOL.file("refused.txt", "table 10000100 20000010\nturn\n");
    let (status, printed, _) = TOOL.ran(&["turns", &refused]);
    assert_eq!(status, 1);
    assert!(printed.starts_with("table refused with 4 ("));
}

/// Names are those of the file that the table is in, of lines in the text, or of a table in
/// words.
#[test]
fn calls_are_handed_in_by_name() {
    let four = in_examples("four.txt");
    let handed =
        "hand in link sends 5 to routes 2 times\nturn\nhand in chutes asks for its rights\n";
    let in_file = TOOL.file("in-file.txt", format!("table {four}\n{handed}"));
    let (status, printed, _) = TOOL.ran(&["turns", &in_file]);
    assert_eq!(status, 0);
    let twice = "line 2: domain 0 (link) hands in 2 times: domain 0 (link) sends 5 to endpoint 1";
    assert!(printed.contains(twice), "{printed}");
    let plain = "table 10000100 20000000\nhand in a asks for its rights\ndomain 0 a\nturn\n";
    assert_eq!(TOOL.status(&["turns", &TOOL.file("plain.txt", plain)]), 0);
    let in_words = "domain a\nendpoint e owner a capacity 1\nhand in a receives from e\nturn\n";
    let printed = TOOL.printed(&["turns", &TOOL.file("in-words.txt", in_words)]);
    let served = "domain 0 (a) receives from endpoint 0 (e): refused with 19";
    assert!(printed.contains(served), "{printed}");
}

#[test]
fn what_is_wrong_with_turns_is_reported_by_its_own_line() {
    let four = in_examples("four.txt");
    for (text, wanted) in [
        (
            "table 10000100 20000000\nturn\nserve 0\n".to_string(),
            "line 3, column 1: there is no `serve` here",
        ),
        (
            "table 10000100 20000000\nhand in 0 my-rights caller 64\n".to_string(),
            "line 2, column 28: caller 64 exceeds its 6 bits",
        ),
        (
            format!("table {four}\nhnad in 0 my-rights caller 0\nturn\n"),
            "line 2, column 1: there is no `hnad` here",
        ),
        (
            format!("table {four}\nturn\nhand in lnik asks for its rights\n"),
            "line 3, column 9: `lnik` is no domain: no domain has this name; did you mean `link`?",
        ),
        (
            format!("table {four}\nturn\ndomain 9 belt\n"),
            "line 3, column 8: there is no domain 9: the table has 0 to 3",
        ),
        ("table no-such-table\nturn\n".to_string(), "cannot read "),
    ] {
        let (status, _, complaint) = TOOL.ran(&["turns", &TOOL.file("wrong.txt", text)]);
        assert_eq!(status, 2);
        assert!(complaint.contains(wanted), "{complaint}");
    }
}
