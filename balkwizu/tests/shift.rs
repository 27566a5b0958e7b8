//! `balkwizu shift` as it is used.

use std::fs;

use line::trial::{worked_example, Trial};
use reference::example::{LIST_L, TABLE_T};
use reference::words::{hex, to_bytes};

const TOOL: Trial = Trial {
    program: env!("CARGO_BIN_EXE_balkwizu"),
    folder: env!("CARGO_TARGET_TMPDIR"),
};

fn in_examples(name: &str) -> String {
    format!("{}/examples/{name}", env!("CARGO_MANIFEST_DIR"))
}

/// The input of linetotals of some files.
fn joined(files: &[&str]) -> Vec<u8> {
    TOOL.run(&[&["shift", "--join"], files].concat()).stdout
}

#[test]
fn a_shift_is_shown_in_one_step() {
    let (four, evening) = (in_examples("four.txt"), in_examples("evening.txt"));
    let page = TOOL.path("shift.html");
    let (status, printed, _) = TOOL.ran(&["shift", &four, &evening, "--html", &page]);
    assert_eq!(status, 0);
    for part in [
        "End of shift: 2 lists ran, all there were.\n",
        &format!("  {evening}: 8 calls, none refused\n"),
        "1 routes   1 loader     5         3     1                 0               1  messages",
        &format!(
            "  {four}, call 8: domain 0 (link) sends 68 to endpoint 3 (belts): refused with 17"
        ),
        &format!("page written to {page}\n"),
    ] {
        assert!(printed.contains(part), "{part}: {printed}");
    }
    let page = fs::read_to_string(&page).unwrap();
    for part in [
        "<p>Made 2",
        "<td>1 routes</td><td>1 loader</td><td>5</td>",
        "<td class=\"lost\">1",
    ] {
        assert!(page.contains(part), "{part}: {page}");
    }
    for fetched in ["http:", "https:", "src=", "href=", "@import", "url("] {
        assert!(!page.contains(fetched), "{fetched}");
    }
}

#[test]
fn a_list_is_given_in_any_form() {
    let first = TOOL.file("first.bin", worked_example());
    let wanted = joined(&[&first, &first]);
    let table = format!("table {}\n", hex(&TABLE_T));
    for list in [
        worked_example(),
        format!("{table}list {}", hex(&LIST_L)).into_bytes(),
        format!("list {}", hex(&LIST_L)).into_bytes(),
        TOOL.printed(&["read", &first]).into_bytes(),
        to_bytes(&[&[0], &LIST_L[..]].concat()),
    ] {
        let list = TOOL.file("second", list);
        assert_eq!(joined(&[&first, &list]), wanted);
        assert_eq!(TOOL.status(&["shift", &first, &list]), 0);
    }
    let four = in_examples("four.txt");
    let words = TOOL.file("words.txt", "list 20000100 F0000005 30400100");
    for calls in [
        "send caller link endpoint routes message 5\nreceive caller 1 endpoint 1\n",
        "calls\n  link sends 5 to routes\n  loader receives from routes\n",
    ] {
        let calls = TOOL.file("calls.txt", calls);
        assert_eq!(joined(&[&four, &calls]), joined(&[&four, &words]));
    }
}

/// The sheet is that of linetotals on the joined input, as the reference prints it.
#[test]
fn the_counts_are_those_of_the_reference() {
    let first = TOOL.file("first.bin", worked_example());
    let printed = reference::totals(&joined(&[&first, &first, &first]));
    let sheet = TOOL.file("sheet.txt", &printed);
    let shown = TOOL.printed(&["shift", "--sheet", &sheet, &first]);
    let ran = TOOL.printed(&["shift", &first, &first, &first]);
    let table = |text: &str| text.split_once("\n\n").map(|(_, rest)| rest.to_string());
    let table_alone = |text: &str| {
        table(text)
            .unwrap()
            .split("\n\n")
            .next()
            .unwrap()
            .to_string()
    };
    assert_eq!(table_alone(&shown).trim_end(), table_alone(&ran).trim_end());
    assert!(
        shown.starts_with("End of shift: 3 lists ran, all there were.\n"),
        "{shown}"
    );
}

/// A list may have the table that the lists before it leave, and no other.
#[test]
fn a_list_of_another_line_is_refused() {
    let four = in_examples("four.txt");
    let first = TOOL.file("first.bin", worked_example());
    let mut table = TABLE_T;
    for call in reference::cut(&LIST_L) {
        reference::step(&mut table, &call);
    }
    let after = TOOL.file(
        "after.bin",
        to_bytes(&[&[34], &table[..], &LIST_L].concat()),
    );
    assert_eq!(TOOL.status(&["shift", &first, &after]), 0);
    table[6] ^= 8;
    let other = TOOL.file(
        "other.bin",
        to_bytes(&[&[34], &table[..], &LIST_L].concat()),
    );
    let named = TOOL.file("named.txt", "domain 1 link\nlist 50000000\n");
    for (line, why) in [
        ([&first, &other], "its table differs in "),
        (
            [&four, &first],
            "its table differs in the table: 3 domains, in the plan 4 (and ",
        ),
        (
            [&four, &named],
            "domain 1 is `link` in it, and `loader` there",
        ),
    ] {
        for join in [&["shift"][..], &["shift", "--join"]] {
            let (status, printed, complaint) = TOOL.ran(&[join, &[line[0], line[1]]].concat());
            assert_eq!((status, printed.as_str()), (1, ""));
            let file = format!("{} isn't of the line of {}: ", line[1], line[0]);
            assert!(
                complaint.contains(&file) && complaint.contains(why),
                "{complaint}"
            );
        }
    }
}

#[test]
fn a_refused_list_ends_the_shift_and_is_named() {
    let first = TOOL.file("first.bin", worked_example());
    let long = TOOL.file("long.txt", "list 50000000*4097");
    let (status, printed, complaint) = TOOL.ran(&["shift", &first, &long, &first]);
    assert_eq!(status, 1);
    let wanted = format!("End of shift: 1 list ran; then {long} was refused with 1 (");
    assert!(printed.starts_with(&wanted), "{printed}");
    assert!(complaint.contains("is refused with 1 ("), "{complaint}");
    let (status, printed, _) = TOOL.ran(&["shift", "--join", &first, &long, &first]);
    assert_eq!((status, printed.as_str()), (1, ""));
    let nothing = TOOL.file("none.bin", b"");
    let (status, _, complaint) = TOOL.ran(&["shift", &nothing]);
    assert_eq!(status, 1);
    assert!(complaint.contains("is refused with 7 (the input is cut short"));
    let alone = TOOL.file("alone.txt", format!("list {}", hex(&LIST_L)));
    assert_eq!(TOOL.status(&["shift", &alone]), 2);
}

#[test]
fn a_printed_sheet_is_shown_with_the_names_of_its_line() {
    let row = |e| format!("endpoint {e} sent 2 received 1 lost 0 start 0 end 1\n");
    let printed: String = (0..4).map(row).collect();
    let sheet = TOOL.file("sheet.txt", printed + "lists 3 code 0\n");
    let page = TOOL.path("sheet.html");
    let four = in_examples("four.txt");
    assert_eq!(
        TOOL.status(&["shift", "--sheet", &sheet, &four, "--html", &page]),
        0
    );
    let page = fs::read_to_string(&page).unwrap();
    assert!(
        page.contains("<td>1 routes</td><td>1 loader</td><td>2</td>"),
        "{page}"
    );
    let plain = TOOL.printed(&["shift", "--sheet", &sheet]);
    assert!(
        plain.contains("\n0                   2         1     0"),
        "{plain}"
    );
    let first = TOOL.file("first.bin", worked_example());
    let (status, _, complaint) = TOOL.ran(&["shift", "--sheet", &sheet, &first]);
    assert_eq!(status, 2);
    assert!(
        complaint.contains("has not as many endpoints as"),
        "{complaint}"
    );
    let one = TOOL.printed(&[
        "shift",
        "--sheet",
        &TOOL.file("one.txt", "lists 1 code 7\n"),
    ]);
    assert!(one.contains("1 list ran; what came then was refused with 7: the input is cut short"));
    let bytes = TOOL.complaint(&["shift", "--sheet", &first]);
    assert!(bytes.trim_end().chars().all(|letter| !letter.is_control()));
    assert!(bytes.contains("is no sheet of linetotals"), "{bytes}");
    let none = TOOL.file("none.txt", "calls 0 code 7\n");
    let (status, _, complaint) = TOOL.ran(&["shift", "--sheet", &none]);
    assert_eq!(status, 1);
    assert!(
        complaint.contains("is no sheet of linetotals: its last line is"),
        "{complaint}"
    );
}

#[test]
fn an_option_that_is_for_something_else_is_not_passed_over() {
    let four = in_examples("four.txt");
    let out = TOOL.path("out.html");
    for (line, why) in [
        (
            &["shift", "--join", &four, "--html", &out][..],
            "--html is not for --join",
        ),
        (
            &["shift", "--join", &four, "--sheet", &four],
            "--sheet is not for --join",
        ),
        (&["shift", "--join", "-", "-"], "can be read once only"),
        (&["shift", "--sheet", "-", "-"], "can be read once only"),
        (&["shift", "--sheet", &four, &four, &four], "takes one LINE"),
        (&["shift"], "LINE is missing"),
        (&["shift", &four, "--html", &four], "would overwrite"),
    ] {
        let (status, _, complaint) = TOOL.ran(line);
        assert_eq!(status, 2, "{line:?}");
        assert!(complaint.contains(why), "{complaint}");
    }
}
