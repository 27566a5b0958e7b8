//! The bench as it is used: its commands, what they print and their exit status.

use std::fs;
use std::os::unix::fs::PermissionsExt;
use std::path::PathBuf;
use std::thread;

use line::trial::{worked_example, Trial};

const TOOL: Trial = Trial {
    program: env!("CARGO_BIN_EXE_bench"),
    folder: env!("CARGO_TARGET_TMPDIR"),
};

/// What an archive is called: only that of the repository is known to be proved.
fn archive_title() -> String {
    match option_env!("BALKWIZU_ARCHIVE") {
        None => "proved archive".to_string(),
        Some(named) => {
            let path = fs::canonicalize(named).expect("the archive is there");
            format!("archive {}", path.display())
        }
    }
}

fn longest_line(text: &str) -> usize {
    let lengths = text.lines().map(|line| line.chars().count());
    lengths.max().expect("a line")
}

#[test]
fn help_is_given_for_every_command_and_fits_80_columns() {
    let (status, all, _) = TOOL.ran(&["--help"]);
    assert!(status == 0 && longest_line(&all) <= 80, "{all}");
    let commands = "fuzz step queue tables histories linerun totals commission speed instructions";
    for command in commands.split(' ') {
        assert!(all.contains(&format!("  bench {command}")), "{all}");
        let help = TOOL.printed(&[command, "--help"]);
        assert!(help.starts_with(&format!("bench {command}")), "{help}");
        assert!(help.contains("Exit status:"), "{help}");
        assert!(longest_line(&help) <= 80, "{help}");
    }
    assert_eq!(all.matches("\n  bench ").count(), 12, "{all}");
    let version = concat!("bench ", env!("CARGO_PKG_VERSION"), "\n");
    assert_eq!(TOOL.printed(&["--version"]), version);
}

#[test]
fn bad_usage_ends_with_2_and_says_why() {
    let beyond = ["fuzz", "--from", "18446744073709551615", "--cases", "2"];
    let long = ["linerun", "/bin/true", "--time", "18446744073709551615"];
    for (line, why) in [
        (&["frobnicate"][..], "there is no such command"),
        (&["fuzz", "--case", "3"], "there is no option --case"),
        (&["fuzz", "--kernel", "other"], "no kernel `other`"),
        (&["fuzz", "--cases", "0"], "leave nothing to compare"),
        (&beyond, "go beyond 2^64 - 1"),
        (
            &["commission", "/no/such/file"],
            "cannot read /no/such/file",
        ),
        (&["speed", "--rounds", "0"], "not 0"),
        (&["speed", "--record", "/no/such/folder/run"], "no folder"),
        (&["linerun", "/no/such/program"], "cannot start"),
        (&["linerun", "Cargo.toml"], "write ./Cargo.toml"),
        (&long, "is too long"),
        (
            &["totals", "/bin/true", "--rounds", "3"],
            "--rounds is not for a comparison",
        ),
        (
            &["totals", "/bin/true", "--speed", "--cases", "3"],
            "--cases is not for --speed",
        ),
        (
            &["linerun", "/bin/true", "--rounds", "3"],
            "--rounds is not for a comparison",
        ),
        (
            &["linerun", "/bin/true", "--speed", "--seed", "3"],
            "--seed is not for --speed",
        ),
        (
            &["instructions", "--write", "--file", "/no/such/x.txt"],
            "there is no folder /no/such",
        ),
    ] {
        let (status, printed, complaint) = TOOL.ran(line);
        assert_eq!((status, printed.as_str()), (2, ""), "{line:?}");
        assert!(complaint.contains(why), "{complaint}");
    }
}

#[test]
fn a_check_that_fails_is_reported_with_names() {
    let four = concat!(env!("CARGO_MANIFEST_DIR"), "/../balkwizu/examples/four.txt");
    let list = TOOL.printed(&["commission", four, "--kernel", "wrong-newest-first"]);
    let failed: Vec<&str> = list
        .lines()
        .filter(|line| line.contains(" failed "))
        .collect();
    assert_eq!(failed.len(), 2, "{list}");
    let call = "receives from endpoint 3 (belts)): the kernel answers ";
    assert!(failed[0].contains(call), "{list}");
    assert!(failed[1].contains("): domain 3 (drives), with "), "{list}");
}

#[test]
fn fuzz_meets_every_code_and_shows_no_progress_in_a_pipe() {
    let line = [
        "fuzz",
        "--cases",
        "10,000",
        "--table-checks",
        "10,000",
        "--seed",
        "3",
    ];
    let ran = TOOL.run(&line);
    assert_eq!(ran.status.code(), Some(0));
    assert!(ran.stderr.is_empty());
    let text = String::from_utf8(ran.stdout).expect("text");
    assert!(
        text.ends_with("fuzz of balkwizu with seed 3: passed\n"),
        "{text}"
    );
}

#[test]
fn one_run_can_be_tried_again_alone() {
    let again = "fuzz --seed 3 --from 4 --cases 1 --table-checks 0";
    let again: Vec<&str> = again.split(' ').collect();
    let (status, printed, _) = TOOL.ran(&again);
    assert_eq!(status, 0);
    assert!(printed.ends_with("too few runs to ask that every code is met\n"));
}

#[test]
fn a_difference_is_cut_down_to_a_small_table() {
    let ran = TOOL.run(&["fuzz", "--kernel", "wrong-code-11-kind-9", "--cases", "100"]);
    let report = String::from_utf8(ran.stdout).expect("text");
    assert_eq!(ran.status.code(), Some(1), "{report}");
    assert!(report.starts_with("DIFFERENCE in run "), "{report}");
    // A call of an unknown kind needs nothing of a table.
    assert!(report.contains("Cut down to 1 call:"), "{report}");
    assert!(
        report.contains("\ntable\n10000100\n20000000\nlist\n9"),
        "{report}"
    );
}

/// What the fuzz says of a kernel that stops, and the input that it gives with it.
fn stopped_fuzz(kernel: &str) -> (String, Vec<u8>) {
    let line = ["fuzz", "--cases", "100", "--kernel", kernel, "--time", "1"];
    let ran = TOOL.run(&line);
    let report = String::from_utf8(ran.stdout).expect("text");
    assert_eq!(ran.status.code(), Some(1), "{report}");
    assert!(report.ends_with(&format!("fuzz of {kernel} with seed 1: FAILED\n")));
    // Nothing comes before what is wrong.
    assert!(report.starts_with("STOPPED in run "), "{report}");
    let (_, words) = report
        .split_once("as `balkwizu write` takes them:\n")
        .expect("the words are given");
    let (words, _) = words.split_once("# answer space").expect("the space");
    let input = line::text::hex::read(words).expect("a text of words");
    (report, input.bytes)
}

#[test]
fn a_kernel_that_faults_is_reported_by_the_fuzz_with_its_input() {
    let (report, input) = stopped_fuzz("wrong-faults");
    assert!(report.contains("ended by signal 11 (segmentation fault)\nTo see it again"));
    assert!(report.contains("Cut down to 1 call:"), "{report}");
    assert_eq!(input.last().expect("a call") >> 4, 7);
}

#[test]
fn a_kernel_that_loops_is_reported_by_the_fuzz_with_its_input() {
    let (report, _) = stopped_fuzz("wrong-loops");
    assert!(report.contains("the kernel had not returned after 1 s\nTo see it again"));
    assert!(report.contains("Cut down to 1 call:"), "{report}");
    assert!(report.contains("\nlist\n1"), "{report}");
}

#[test]
fn a_kernel_that_stops_fails_a_check_of_the_checklist_and_the_others_go_on() {
    let input = TOOL.file("stops.bin", worked_example());
    let (status, list, _) = TOOL.ran(&["commission", &input, "--kernel", "wrong-faults"]);
    assert_eq!(status, 1);
    for number in 1..=4 {
        assert!(
            list.contains(&format!("\ncheck {number} failed ")),
            "{list}"
        );
    }
    assert!(list.contains("ended by signal 11 (segmentation fault)\nCut down to 1 call:"));
    assert!(list.contains("\nlist\n7"), "{list}");
    assert!(
        list.contains("lists were finished and are right\n"),
        "{list}"
    );
    assert!(list.ends_with("summary: 0 passed, 4 failed\n"), "{list}");
}

#[test]
fn a_program_that_is_no_linerun_differs() {
    let (status, echoed, _) = TOOL.ran(&["linerun", "/bin/cat", "--cases", "3"]);
    assert_eq!(status, 1);
    assert!(
        echoed.starts_with("DIFFERENCE in fixed input 0, "),
        "{echoed}"
    );
    let silent = TOOL.printed(&["linerun", "/bin/true", "--cases", "3"]);
    assert!(silent.contains("it prints nothing"), "{silent}");
    let failing = TOOL.printed(&["linerun", "/bin/false", "--cases", "3"]);
    assert!(failing.contains("it ended with status 1, it should be 0"));
    let endless = TOOL.printed(&["linerun", "/usr/bin/yes", "--cases", "3"]);
    assert!(endless.contains("it was stopped: it printed more than 270364 bytes"));
}

/// A program that stands in for linerun and reads its input in the given way.
fn stand_in(how: &str) -> String {
    let built = PathBuf::from(env!("CARGO_BIN_EXE_bench"));
    let built = built.with_file_name("examples").join("stand_in");
    assert!(built.exists(), "it is made where all tests are: no --test");
    let script = format!("#!/bin/sh\nexec '{}' {how}\n", built.display());
    let path = TOOL.file(&format!("linerun-{how}"), script.as_bytes());
    fs::set_permissions(&path, fs::Permissions::from_mode(0o755)).expect("it can be made to run");
    path
}

/// What is reported of a stand-in on the first of some inputs that it differs on.
fn report_of(how: &str, inputs: impl Iterator<Item = u64>) -> String {
    let program = stand_in(how);
    let reports = inputs.map(|number| {
        let from = number.to_string();
        let line = [
            "linerun", &program, "--from", &from, "--cases", "1", "--time", "2",
        ];
        TOOL.printed(&line)
    });
    let mut reports = reports.filter(|report| report.starts_with("DIFFERENCE"));
    reports.next().expect("a difference")
}

#[test]
fn a_linerun_that_stops_reading_in_time_passes() {
    let ran = TOOL.printed(&["linerun", &stand_in("right"), "--cases", "100"]);
    assert!(ran.contains("nothing differs"), "{ran}");
}

#[test]
fn a_linerun_that_reads_all_of_its_input_first_is_reported() {
    let list = report_of("late", (0..).step_by(16));
    assert!(list.contains("it had not ended after 2 s"), "{list}");
    assert!(list.contains("list word 4,097 was there, so that the answer was due"));
    let length = report_of("late", (1..).filter(|number| number % 16 > 1));
    assert!(length.contains("it had not ended after 2 s"), "{length}");
    assert!(length.contains("the length word is above 641, so that the answer was due"));
}

#[test]
fn a_linerun_that_takes_a_short_read_for_the_end_is_reported() {
    let bytes = report_of("once", (9..).step_by(64));
    assert!(bytes.contains("It was given byte by byte."), "{bytes}");
    let parts = report_of("once", (5..).step_by(64));
    assert!(parts.contains("It was given in parts of 1 to 257 bytes."));
}

#[test]
fn an_input_that_differs_comes_back_through_words() {
    let report = TOOL.printed(&["linerun", "/bin/true", "--from", "1", "--cases", "1"]);
    let (_, words) = report
        .split_once("as `balkwizu write` takes them:\n")
        .expect("the words are given");
    let input = line::text::hex::read(words).expect("a text of words");
    let first = String::from_utf8(reference::linerun(&input.bytes)).expect("text");
    let first = first.lines().next().expect("a line");
    assert!(report.contains(&format!("line 1 should be: {first}")));
}

#[test]
fn speed_prints_every_table() {
    let text = TOOL.printed(&["speed", "--all", "--rounds", "1", "--seed", "2"]);
    // The check of words is there where the program was built with it.
    let of_words = |line: &&str| line.starts_with("| table check, ") && line.contains(" words)");
    let rows = text.lines().filter(|line| line.starts_with("| "));
    assert_eq!(rows.filter(|line| !of_words(line)).count(), 146, "{text}");
    assert!([0, 2].contains(&text.lines().filter(of_words).count()));
    assert!(
        text.contains(&format!("; kernel {}; ", archive_title())),
        "{text}"
    );
    assert!(text.contains("; seed 2."), "{text}");
    let crossings = text.matches("balkwizu-working is the faster of the two");
    assert_eq!(crossings.count(), 8, "{text}");
    assert!(text.contains("\n| 16 | 32 | 641 | "), "{text}");
}

#[test]
fn runs_that_are_kept_are_merged_and_drawn() {
    let files = ["1", "2"].map(|number| TOOL.path(&format!("run-{number}")));
    let picture = TOOL.path("growth.svg");
    for file in &files {
        let line = ["speed", "--growth", "--rounds", "1", "--record", file];
        assert_eq!(TOOL.status(&line), 0);
        // Runs are known by the second that they began in.
        thread::sleep(std::time::Duration::from_millis(1100));
    }
    let text = TOOL.printed(&["speed", "--merge", &files[0], &files[1], "--svg", &picture]);
    assert!(text.starts_with("Medians over 2 runs, begun 20"), "{text}");
    assert_eq!(text.matches("\n| mixed, n 4, m 4, by words | ").count(), 13);
    let drawn = fs::read_to_string(&picture).expect("a picture");
    assert!(drawn.starts_with("<svg ") && drawn.contains(">endpoints, m<"));
    assert!(TOOL
        .complaint(&["speed", "--merge", &files[0], &files[0]])
        .contains("is given twice"));
    assert!(TOOL
        .complaint(&["speed", "--merge", &picture])
        .contains("cannot read "));
    assert!(TOOL
        .complaint(&["speed", "--merge", "--all", &files[0]])
        .contains("nothing else"));
}

#[test]
fn histories_show_the_longest_waits() {
    let text = TOOL.printed(&["histories", "--cases", "1,000"]);
    for n in 1..=16 {
        let row = format!("{n:>12}  turns that an oldest call waited, number of domains {n}\n");
        assert!(text.contains(&row), "{text}");
    }
    assert!(text.ends_with("1000 cases with seed 1: passed\n"), "{text}");
}

#[test]
fn a_report_is_written_where_a_check_failed() {
    let input = TOOL.file("failed.bin", worked_example());
    let page = TOOL.path("failed.html");
    let line = [
        "commission",
        &input,
        "--report",
        &page,
        "--kernel",
        "wrong-newest-first",
    ];
    let (status, printed, _) = TOOL.ran(&line);
    assert_eq!(status, 1);
    assert!(printed.contains("\ncheck 2 failed "), "{printed}");
    let title = "kernel wrong-newest-first (the newest message is received first)";
    assert!(printed.contains(title), "{printed}");
    let page = fs::read_to_string(&page).expect("the page is there");
    assert!(page.contains("FAILED: check 2 (answers and table), check 3 (isolation)"));
    assert!(
        page.contains("the newest message is received first"),
        "the kernel is named"
    );
}

#[test]
fn a_kernel_that_only_the_drills_show_fails_by_them() {
    let input = TOOL.file("drills.bin", worked_example());
    let (status, list, _) = TOOL.ran(&["commission", &input, "--kernel", "wrong-size-domain-15"]);
    assert_eq!(status, 1);
    assert!(list.contains("\ncheck 1 passed"), "{list}");
    assert!(
        list.contains("\ncheck 2 failed  answers and table: the fields of calls at "),
        "{list}"
    );
}

#[test]
fn what_never_ends_is_read_no_further_than_it_can_matter() {
    for line in [
        ["speed", "--merge", "/dev/zero"],
        ["instructions", "--file", "/dev/zero"],
    ] {
        let (status, _, complaint) = TOOL.ran(&line);
        assert_eq!(status, 2, "{complaint}");
        assert!(complaint.contains("/dev/zero: it is "), "{complaint}");
    }
}
