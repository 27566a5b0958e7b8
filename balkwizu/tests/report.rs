//! Reports of commissioning as they are made, and what is read back from a controller judged:
//! what is written, what is printed, and the exit status.

use std::fs;
use std::path::Path;
use std::process::Command;

use line::trial::{worked_example, Trial};
use reference::example::{LIST_L, PRINTED, TABLE_T};
use reference::words::{hex, to_bytes};

const TOOL: Trial = Trial {
    program: env!("CARGO_BIN_EXE_balkwizu"),
    folder: env!("CARGO_TARGET_TMPDIR"),
};

/// What the reference answers to the worked example, and the table that it leaves.
fn right_words() -> (Vec<u32>, Vec<u32>) {
    let (mut table, mut answers) = (TABLE_T.to_vec(), vec![0; 27]);
    assert_eq!(reference::run(&mut table, &LIST_L, &mut answers), (0, 9));
    (answers, table)
}

#[test]
fn a_report_is_written_as_a_page_and_as_json() {
    let input = TOOL.file("reported.bin", worked_example());
    let (page, json) = (TOOL.path("reported.html"), TOOL.path("reported.json"));
    let (status, printed, _) =
        TOOL.ran(&["commission", &input, "--report", &page, "--json", &json]);
    assert_eq!(status, 0);
    let end = format!("report written to {page}\nreport written to {json}\n");
    assert!(printed.ends_with(&end), "{printed}");
    let page = fs::read_to_string(&page).expect("the page is there");
    assert!(page.starts_with("<!DOCTYPE html>") && page.ends_with("</html>\n"));
    // As sha256sum has it of the file.
    let hash = "f35ec5644328d85abd933b6757fd464b85817d45d7e38d5c754225ee02814e93";
    assert!(page.contains(hash));
    let read = Command::new("python3")
        .args(["-m", "json.tool", &json])
        .output();
    let read = read.expect("python3 starts");
    assert!(read.status.success(), "{:?}", read.stderr);
    assert!(String::from_utf8_lossy(&read.stdout).contains(hash));
}

/// The names of all fields of a JSON text, as it is.
fn fields(json: &str) -> Vec<&str> {
    let named = json.lines().filter_map(|line| line.split_once("\": "));
    let mut fields: Vec<&str> = named
        .map(|(name, _)| name.trim_start_matches([' ', '"']))
        .collect();
    fields.sort_unstable();
    fields.dedup();
    fields
}

#[test]
fn every_field_is_one_that_the_document_names() {
    let repository = Path::new(env!("CARGO_MANIFEST_DIR"))
        .parent()
        .expect("the repository");
    let document = fs::read_to_string(repository.join("docs/REPORT.md")).expect("a document");
    let input = TOOL.file("fields.bin", worked_example());
    let (answers, mut left) = right_words();
    let answers = TOOL.file("fields.answers", &to_bytes(&answers));
    let right = TOOL.file("fields.left", &to_bytes(&left));
    left[25] = 0x6000_0000;
    let wrong = TOOL.file("fields.wrong", &to_bytes(&left));
    let json = TOOL.path("fields.json");
    let kernel = ["commission", &input, "--json", &json];
    let read_back = |left| [&kernel[..], &["--answers", &answers, "--left", left]].concat();
    let (words, failing) = (read_back(&right), read_back(&wrong));
    for (line, count) in [(&kernel[..], 60), (&words, 58), (&failing, 59)] {
        TOOL.ran(line);
        let json = fs::read_to_string(&json).expect("the JSON is there");
        let fields = fields(&json);
        for field in &fields {
            assert!(document.contains(&format!("`{field}`")), "{field}");
        }
        assert_eq!(fields.len(), count, "{fields:?}");
    }
}

#[test]
fn the_archive_is_identified_as_in_a_controller_s_program() {
    let repository = Path::new(env!("CARGO_MANIFEST_DIR"))
        .parent()
        .expect("the repository");
    let identify = Command::new(repository.join("firmware/identify"))
        .arg(repository.join("crates/balkwizu/out/libbalkwizu.a"))
        .output();
    let printed = String::from_utf8(identify.expect("it starts").stdout).expect("a text");
    let hash = printed.split(' ').next().expect("a hash");
    assert_eq!(hash.len(), 64, "{printed}");
    let input = TOOL.file("identified.bin", worked_example());
    let (page, json) = (TOOL.path("identified.html"), TOOL.path("identified.json"));
    let line = ["commission", &input, "--report", &page, "--json", &json];
    assert_eq!(TOOL.ran(&[&line[..], &["--campaign", "0"]].concat()).0, 0);
    for written in [page, json] {
        let text = fs::read_to_string(&written).expect("it is there");
        assert!(text.contains(hash), "{written}");
    }
}

#[test]
fn fields_are_filled_as_they_are_given_and_otherwise_left_open() {
    let input = TOOL.file("filled.bin", worked_example());
    let (page, json) = (TOOL.path("filled.html"), TOOL.path("filled.json"));
    let line = ["commission", &input, "--report", &page, "--json", &json];
    let fields = [
        "--controller",
        "C-17 <b>",
        "--site",
        "Hall 4",
        "--campaign",
        "0",
    ];
    assert_eq!(TOOL.ran(&[&line[..], &fields].concat()).0, 0);
    let page = fs::read_to_string(&page).expect("the page is there");
    for row in [
        "<tr><th>Controller</th><td>C-17 &lt;b&gt;</td></tr>",
        "<tr><th>Site</th><td>Hall 4</td></tr>",
        "<tr><th>Firmware</th><td><div class=\"blank\"></div></td></tr>",
    ] {
        assert!(page.contains(row), "{row}");
    }
    let json = fs::read_to_string(&json).expect("the JSON is there");
    let place = "\"controller\": \"C-17 <b>\",\n  \"site\": \"Hall 4\",\n  \"firmware\": null,";
    assert!(json.contains(place), "{json}");
    let (status, _, complaint) = TOOL.ran(&["commission", &input, "--site", "Hall 4"]);
    assert!(status == 2 && complaint.contains("--site fills a field of a report"));
}

#[test]
fn a_report_that_cannot_be_written_ends_with_2_and_the_verdicts_are_printed() {
    let input = TOOL.file("unwritten.bin", worked_example());
    for option in ["--report", "--json"] {
        let (status, printed, complaint) = TOOL.ran(&["commission", &input, option, "/dev/full"]);
        assert_eq!(status, 2);
        assert!(
            complaint.contains("cannot write /dev/full: "),
            "{complaint}"
        );
        assert!(printed.ends_with("summary: 4 passed, 0 failed, 5 not shown\n"));
    }
}

#[test]
fn nothing_that_is_read_is_overwritten() {
    let input = TOOL.file("read.bin", worked_example());
    let (answers, left) = right_words();
    let answers = TOOL.file("read.answers", &to_bytes(&answers));
    let left = TOOL.file("read.left", &to_bytes(&left));
    let link = TOOL.path("read.link");
    let _ = fs::remove_file(&link);
    fs::hard_link(&left, &link).expect("a link can be made");
    for out in [&input, &answers, &left, &link] {
        let line = [
            "commission",
            &input,
            "--answers",
            &answers,
            "--left",
            &left,
            "--report",
            out,
        ];
        let (status, printed, complaint) = TOOL.ran(&line);
        assert!(status == 2 && printed.is_empty(), "{printed}");
        assert!(
            complaint.contains("is the input, which it would overwrite"),
            "{complaint}"
        );
    }
    assert_eq!(
        fs::read(&input).expect("it is still there"),
        worked_example()
    );
}

#[test]
fn what_is_refused_gets_no_report() {
    let input = TOOL.file("unreported.bin", &worked_example()[..50]);
    let page = TOOL.path("unreported.html");
    let _ = fs::remove_file(&page);
    assert_eq!(TOOL.ran(&["commission", &input, "--report", &page]).0, 1);
    assert!(!Path::new(&page).exists());
}

#[test]
fn words_that_were_read_back_are_judged_in_each_form() {
    let input = TOOL.file("back.bin", worked_example());
    let (answers, left) = right_words();
    let bytes = [
        TOOL.file("back.answers", &to_bytes(&answers)),
        TOOL.file("back.left", &to_bytes(&left)),
    ];
    let text = [
        TOOL.file(
            "back-answers.txt",
            format!("# answers\n{}\n", hex(&answers)).as_bytes(),
        ),
        TOOL.file("back-left.txt", hex(&left).as_bytes()),
    ];
    let printed = [
        TOOL.file("back-printed.txt", PRINTED),
        TOOL.file(
            "back-table.txt",
            format!("domain 0 link\ntable\n{}\nlist\n", hex(&left)),
        ),
    ];
    for [answers, left] in [&bytes, &text, &printed] {
        let line = ["commission", &input, "--answers", answers, "--left", left];
        let (status, printed, _) = TOOL.ran(&line);
        assert_eq!(status, 0, "{printed}");
        assert!(printed.contains(" on what was read back from a controller: 3 domains"));
        assert!(printed.contains("not shown: damaged tables"), "{printed}");
        assert!(!printed.contains("exercise made"), "{printed}");
        assert!(
            printed.ends_with("summary: 4 passed, 0 failed, 10 not shown\n"),
            "{printed}"
        );
    }
}

#[test]
fn words_that_show_nothing_end_with_a_status_of_their_own() {
    let table = to_bytes(&TABLE_T);
    let input = TOOL.file("no-list.bin", &[&34u32.to_le_bytes()[..], &table].concat());
    let (answers, left) = (
        TOOL.file("no-list.answers", &[]),
        TOOL.file("no-list.left", &table),
    );
    let (status, printed, _) =
        TOOL.ran(&["commission", &input, "--answers", &answers, "--left", &left]);
    assert!(
        printed.contains("summary: 0 passed, 0 failed, "),
        "{printed}"
    );
    assert_eq!(status, 3);
}

#[test]
fn wrong_words_that_were_read_back_fail_and_are_reported() {
    let input = TOOL.file("bad.bin", worked_example());
    let (answers, mut left) = right_words();
    left[25] = 0x6000_0000;
    let answers = TOOL.file("bad.answers", &to_bytes(&answers));
    let left = TOOL.file("bad.left", &to_bytes(&left));
    let page = TOOL.path("bad.html");
    let line = [
        "commission",
        &input,
        "--answers",
        &answers,
        "--left",
        &left,
        "--report",
        &page,
    ];
    let (status, printed, _) = TOOL.ran(&line);
    assert_eq!(status, 1);
    assert!(printed.contains("check 1 passed, "), "{printed}");
    let lost = "check 4 failed  counts: endpoint 1: the lost count should be 1; the table says 0";
    assert!(printed.contains(lost), "{printed}");
    let leaves = "lost count, was 60000000: the controller leaves 60000000, the ";
    assert!(printed.contains(leaves), "{printed}");
    let page = fs::read_to_string(&page).expect("the page is there");
    assert!(page.contains("a controller, whose words were read back; no kernel was run here"));
    assert!(page.contains("<br>Not to be put into service<p>") && !page.contains("class=\"box\""));
    // No kernel ran, so that none is named.
    assert!(!printed.contains("the kernel"), "{printed}");
    assert!(!page.contains("the kernel"), "{page}");
}

#[test]
fn other_numbers_of_words_than_there_must_be_are_reported() {
    let input = TOOL.file("long.bin", worked_example());
    let (answers, left) = right_words();
    let right = TOOL.file("long.answers", &to_bytes(&answers));
    let short = TOOL.file("short.answers", &to_bytes(&answers[3..]));
    let left = TOOL.file("long.left", &to_bytes(&left));
    let (status, printed, _) =
        TOOL.ran(&["commission", &input, "--answers", &short, "--left", &left]);
    assert_eq!(status, 1);
    let why = "cannot be judged: the answer to 9 calls takes 27 words, and 24 were read back\n";
    assert!(printed.ends_with(why), "{printed}");
    let odd = TOOL.file("odd.left", &[0; 7]);
    let (status, _, complaint) =
        TOOL.ran(&["commission", &input, "--answers", &right, "--left", &odd]);
    assert_eq!(status, 2);
    assert!(
        complaint.contains("odd.left: 3 bytes left over"),
        "{complaint}"
    );
    let (status, _, complaint) = TOOL.ran(&["commission", &input, "--answers", &right]);
    assert!(
        status == 2 && complaint.contains("are given together"),
        "{complaint}"
    );
}
