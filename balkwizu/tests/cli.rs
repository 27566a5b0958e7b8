//! The program as it is used: its commands, what they print and their exit status.

use std::ffi::OsStr;
use std::fs;
use std::os::unix::ffi::OsStrExt;
use std::path::PathBuf;
use std::process::{Command, Stdio};

use line::trial::{worked_example, Trial};
use reference::example::{LIST_L, PRINTED, TABLE_T};
use reference::generate::{values_of_words, Rng};
use reference::words::{hex, to_bytes};

const TOOL: Trial = Trial {
    program: env!("CARGO_BIN_EXE_balkwizu"),
    folder: env!("CARGO_TARGET_TMPDIR"),
};

/// What an archive is called: only that of the repository is known to be proved.
fn archive_title() -> String {
    match option_env!("BALKWIZU_ARCHIVE") {
        None => "proved archive".to_string(),
        Some(named) => {
            let path = fs::canonicalize(named).expect("the archive is there");
            format!("archive {}", path.display())
        }
    }
}

fn longest_line(text: &str) -> usize {
    let lengths = text.lines().map(|line| line.chars().count());
    lengths.max().expect("a line")
}

#[test]
fn help_is_given_for_every_command() {
    assert_eq!(TOOL.status(&["--help"]), 0);
    assert!(TOOL.printed(&["--help"]).contains("or a closed pipe"));
    let commands =
        "show check run commission influence write read repair compare turns shift codes";
    for command in commands.split(' ') {
        let help = TOOL.printed(&[command, "--help"]);
        assert!(help.starts_with(&format!("balkwizu {command}")), "{help}");
        assert!(help.contains("Exit status:"), "{help}");
        assert!(TOOL
            .printed(&["--help"])
            .contains(&format!("balkwizu {command}")));
    }
}

#[test]
fn help_fits_80_columns() {
    let all = TOOL.printed(&["--help"]);
    assert!(longest_line(&all) <= 80, "{all}");
    assert!(all.lines().count() <= 24, "{all}");
    let listed = all
        .lines()
        .filter_map(|line| line.strip_prefix("  balkwizu "));
    let named = listed.filter_map(|line| line.split(' ').next());
    let commands: Vec<&str> = named
        .filter(|name| !["help", "--version"].contains(name))
        .collect();
    assert!(commands.len() == 12, "{all}");
    for command in commands {
        let help = TOOL.printed(&["help", command]);
        assert!(longest_line(&help) <= 80, "{help}");
        let most = if command == "commission" { 70 } else { 50 };
        assert!(help.lines().count() <= most, "{help}");
    }
}

#[test]
fn help_and_the_version_are_asked_for_in_any_way() {
    assert_eq!(
        TOOL.printed(&["help", "show"]),
        TOOL.printed(&["show", "--help"])
    );
    for again in [&["help"][..], &["help", "help"], &["--help", "--help"]] {
        assert_eq!(TOOL.printed(again), TOOL.printed(&["--help"]));
    }
    assert_eq!(TOOL.status(&["help", "frobnicate"]), 2);
    assert!(TOOL
        .complaint(&["help", "frobnicate"])
        .contains("no such command as `frobnicate`"));
    let version = concat!("balkwizu ", env!("CARGO_PKG_VERSION"), "\n");
    assert_eq!(TOOL.printed(&["--version"]), version);
    assert_eq!(TOOL.status(&["--version"]), 0);
}

#[test]
fn an_option_that_there_is_not_is_no_file() {
    let input = TOOL.file("option.bin", worked_example());
    assert_eq!(TOOL.status(&["show", "-x", &input]), 2);
    assert_eq!(
        TOOL.complaint(&["show", "-x", &input]),
        "balkwizu show: there is no option -x; --help lists them\n"
    );
    let behind = TOOL.printed(&["show", "--run", "--", &input]);
    assert_eq!(behind, TOOL.printed(&["show", &input, "--run"]));
    assert!(TOOL
        .complaint(&["show", "--", "--help"])
        .contains("cannot read --help"));
}

#[test]
fn a_file_can_be_called_anything() {
    let named = |name| PathBuf::from(TOOL.path("")).join(OsStr::from_bytes(name));
    let (odd, out) = (named(b"odd-\xFF.bin"), named(b"odd-\xFF.svg"));
    fs::write(&odd, worked_example()).expect("a file can be written");
    let ran = |line: &[&OsStr]| {
        let mut command = Command::new(env!("CARGO_BIN_EXE_balkwizu"));
        command.args(line).output().expect("the program starts")
    };
    let shown = ran(&[
        "show".as_ref(),
        odd.as_ref(),
        "--svg".as_ref(),
        out.as_ref(),
    ]);
    assert_eq!(shown.status.code(), Some(0), "{shown:?}");
    assert!(fs::read(&out)
        .expect("the picture is there")
        .starts_with(b"<svg "));
    for line in [
        &[OsStr::from_bytes(b"\xFF")][..],
        &["show".as_ref(), OsStr::from_bytes(b"\xFF")],
    ] {
        let ended = ran(line);
        assert_eq!(ended.status.code(), Some(2));
        let said = String::from_utf8(ended.stderr).expect("text");
        assert!(
            said.starts_with("balkwizu ") && said.contains('\u{FFFD}'),
            "{said}"
        );
    }
}

#[test]
fn a_closed_pipe_ends_with_2_and_without_a_word() {
    let calls = vec![0x5000_0000; 4096];
    let long = to_bytes(&[&[34], &TABLE_T[..], &calls[..]].concat());
    // What is shown is more than a pipe holds, so that it can't all be written before.
    let mut child = Command::new(env!("CARGO_BIN_EXE_balkwizu"))
        .args(["show", &TOOL.file("pipe.bin", &long)])
        .stdout(Stdio::piped())
        .stderr(Stdio::piped())
        .spawn()
        .expect("the program starts");
    drop(child.stdout.take());
    let ended = child.wait_with_output().expect("it ends");
    assert_eq!(ended.status.code(), Some(2));
    assert!(ended.stderr.is_empty());
}

#[test]
fn bad_usage_ends_with_2_and_says_why() {
    assert_eq!(TOOL.status(&[]), 2);
    assert_eq!(TOOL.status(&["frobnicate"]), 2);
    assert!(TOOL
        .complaint(&["frobnicate"])
        .contains("there is no such command"));
    assert_eq!(TOOL.status(&["show", "--case", "3"]), 2);
    assert!(TOOL
        .complaint(&["show", "--case", "3"])
        .contains("there is no option --case"));
    assert_eq!(TOOL.status(&["commission"]), 2);
    assert!(TOOL
        .complaint(&["commission", "/no/such/file"])
        .contains("cannot read /no/such/file"));
    let other = ["commission", "/no/such/file", "--kernel", "plain-gcc"];
    assert!(TOOL
        .complaint(&other)
        .ends_with("balkwizu-working, balkwizu-by-length\n"));
}

#[test]
fn the_worked_example_is_typed_in_and_run() {
    let text = format!("table {}\nlist {}\n", hex(&TABLE_T), hex(&LIST_L));
    let typed = TOOL.file("typed.txt", text.as_bytes());
    let written = TOOL.run(&["write", &typed]);
    assert_eq!(written.status.code(), Some(0));
    assert_eq!(written.stdout, worked_example());
    assert_eq!(reference::linerun(&written.stdout), PRINTED.as_bytes());
    let input = TOOL.file("typed.bin", &written.stdout);
    let back = TOOL.file(
        "back.txt",
        TOOL.printed(&["read", "--hex", &input]).as_bytes(),
    );
    assert_eq!(TOOL.run(&["write", &back]).stdout, worked_example());
    let wrong = TOOL.file("wrong.txt", b"table\n1000030");
    assert_eq!(TOOL.status(&["write", &wrong]), 2);
    assert!(TOOL
        .complaint(&["write", &wrong])
        .contains("line 2, column 1: `1000030` is no word"));
    let nothing = TOOL.file("nothing.txt", b"# no word\n");
    assert_eq!(TOOL.status(&["write", &nothing]), 2);
    assert!(TOOL
        .complaint(&["write", &nothing])
        .contains("there is no word in it"));
    assert!(TOOL
        .complaint(&["write", "/dev/zero"])
        .contains("is above 1,000,000 bytes"));
    assert!(TOOL
        .complaint(&["write", &input])
        .contains("`balkwizu read` makes the text of an input"));
}

#[test]
fn a_table_that_will_be_refused_is_written_with_a_warning() {
    let typed = TOOL.file("warned.txt", b"table 10000100 20000010 list 50000000");
    let written = TOOL.run(&["write", &typed]);
    assert_eq!(written.status.code(), Some(0));
    assert_eq!(written.stdout.len(), 4 * 4);
    let warning = String::from_utf8(written.stderr).expect("text");
    let wanted = "is written, and will be refused with 4 (a rights word breaks its layout): word 1";
    assert!(warning.contains(wanted), "{warning}");
    let cut = TOOL.file("warned-cut.txt", b"00000002 10000100");
    assert!(TOOL
        .complaint(&["write", &cut])
        .contains("will be refused with 7 ("));
    assert_eq!(
        TOOL.complaint(&["write", &TOOL.file("sound.txt", b"table 10000100 20000000")]),
        ""
    );
}

/// How the program ends where the shell gives it its standard output so.
fn with_output(line: &str, output: &str) -> (i32, String) {
    let script = format!("exec '{}' {line} {output}", env!("CARGO_BIN_EXE_balkwizu"));
    let mut shell = Command::new("/bin/sh");
    let ended = shell
        .args(["-c", &script])
        .output()
        .expect("a shell starts");
    let said = String::from_utf8(ended.stderr).expect("text");
    (ended.status.code().expect("it ends by itself"), said)
}

#[test]
fn what_cannot_be_written_ends_with_2() {
    let typed = TOOL.file("unwritten.txt", b"table 10000100 20000000");
    for output in [">&-", ">/dev/full", "1</dev/null"] {
        let (status, said) = with_output(&format!("write '{typed}'"), output);
        assert_eq!(status, 2, "{output}");
        assert!(
            said.starts_with("balkwizu: cannot write: "),
            "{output}: {said}"
        );
    }
    let (status, said) = with_output(&format!("write '{typed}'"), ">/dev/null");
    assert_eq!((status, said.as_str()), (0, ""));
    let (status, _) = with_output("show /no/such/file", "2>/dev/full");
    assert_eq!(status, 2);
}

#[test]
fn the_worked_example_is_commissioned() {
    let input = TOOL.file("commission.bin", worked_example());
    let list = TOOL.printed(&["commission", &input, "--purged", "1"]);
    assert!(list.contains("purged for domain 1: 4 of 9 calls"), "{list}");
    assert!(list.contains(&format!(" on {}: 3 domains", archive_title())));
    for check in 1..=4 {
        assert!(list.contains(&format!("check {check} passed")), "{list}");
    }
    assert!(
        list.ends_with("summary: 4 passed, 0 failed, 5 not shown\n"),
        "{list}"
    );
    assert_eq!(TOOL.status(&["commission", &input]), 0);
    let beyond = ["commission", &input, "--purged", "3"];
    assert_eq!(TOOL.status(&beyond), 2);
    let none = "--purged: there is no domain 3: the table has 0 to 2\n";
    assert!(
        TOOL.complaint(&beyond).ends_with(none),
        "{}",
        TOOL.complaint(&beyond)
    );
}

#[test]
fn purged_calls_are_listed_for_a_domain_by_its_name() {
    let four = in_examples("four.txt");
    let purged = |domain: &str| TOOL.printed(&["commission", &four, "--purged", domain]);
    assert_eq!(purged("drives"), purged("3"));
    assert!(purged("drives").contains("purged for domain 3 (drives): "));
    let nobody = TOOL.complaint(&["commission", &four, "--purged", "nobody"]);
    assert!(nobody.contains("no domain is called `nobody`: there are link,"));
}

#[test]
fn what_is_refused_is_not_commissioned_nor_shown() {
    let mut table = TABLE_T;
    table[9] = 0x2000_0010;
    let input = TOOL.file("refused.bin", &to_bytes(&[&[34], &table[..]].concat()));
    let word = "refused with 4 (a rights word breaks its layout): word 9, the rights of domain 2";
    assert!(TOOL.printed(&["commission", &input]).contains(word));
    assert_eq!(TOOL.status(&["commission", &input]), 1);
    assert_eq!(TOOL.status(&["show", &input]), 1);
    assert!(TOOL
        .printed(&["show", &input])
        .starts_with("table refused with 4"));
    let short = TOOL.file("short.bin", &worked_example()[..50]);
    assert!(TOOL
        .printed(&["commission", &short])
        .contains("its table should have 34 words, it has 11"));
    assert_eq!(TOOL.status(&["show", &short]), 1);
    let endless = TOOL.printed(&["show", "/dev/zero"]);
    assert!(endless.starts_with("refused with 1 "), "{endless}");
}

#[test]
fn a_text_stands_for_its_input() {
    let typed = concat!(env!("CARGO_MANIFEST_DIR"), "/examples/worked.txt");
    let input = TOOL.file("text.bin", worked_example());
    for line in [&["show", "--run"][..], &["commission"]] {
        let of = |path: &str| {
            TOOL.printed(&[line, &[path]].concat())
                .replace(path, "FILE")
        };
        assert_eq!(of(typed), of(&input));
    }
    let wrong = TOOL.file("text-wrong.txt", b"table\n1000010\n");
    for command in ["commission", "show"] {
        assert!(TOOL
            .complaint(&[command, &wrong])
            .contains("line 2, column 1: `1000010` is no word"));
        assert_eq!(TOOL.status(&[command, &wrong]), 2);
    }
    assert_eq!(
        TOOL.printed(&["read", "--hex", typed]),
        TOOL.printed(&["read", "--hex", &input])
    );
    let latin = TOOL.file("latin.txt", b"# F\xF6rderer\ntable 10000100 20000000\n");
    for command in ["commission", "show", "shift", "read", "write", "turns"] {
        let line = [command, &latin];
        assert!(TOOL
            .complaint(&line)
            .contains("line 1 has a letter that is not UTF-8"));
        assert_eq!(TOOL.status(&line), 2, "{command}");
    }
}

#[test]
fn names_that_a_text_gives_stand_beside_the_numbers() {
    let (table, list) = (hex(&TABLE_T), hex(&LIST_L));
    let text = format!("domain 0 link\ntable {table}\nendpoint 1 belts\nlist {list}\n");
    let named = TOOL.file("named.txt", text.as_bytes());
    assert_eq!(TOOL.run(&["write", &named]).stdout, worked_example());
    let shown = TOOL.printed(&["show", &named]);
    let sent = "domain 0 (link) sends 5 to endpoint 1 (belts)";
    assert!(shown.contains(sent), "{shown}");
    let list = TOOL.printed(&["commission", &named, "--purged", "1"]);
    let granted = "domain 1 grants domain 0 (link) SEND+GRANT+REMOVE on domain 2";
    assert!(list.contains(granted), "{list}");
    let wrong = TOOL.file("named-wrong.txt", (text + "domain 3 drives\n").as_bytes());
    let beyond = "line 5, column 8: there is no domain 3: the table has 0 to 2";
    assert!(TOOL.complaint(&["show", &wrong]).contains(beyond));
}

/// The words of a text, without the names that it has.
fn words_without(names: &[&str], text: &str) -> Vec<String> {
    let mut text = text.to_string();
    for name in names {
        text = text.replace(&format!(" ({name})"), "");
        text = text.replace(&format!("({name}, "), "(");
    }
    let words = text.split_whitespace().filter(|word| !names.contains(word));
    words.map(str::to_string).collect()
}

#[test]
fn names_add_nothing_but_themselves() {
    let four = fs::read_to_string(concat!(env!("CARGO_MANIFEST_DIR"), "/examples/four.txt"));
    let named = four.expect("the example is there");
    let is_name = |line: &&str| line.starts_with("domain ") || line.starts_with("endpoint ");
    let lines = named.lines().filter(is_name);
    let names: Vec<&str> = lines.filter_map(|line| line.split(' ').nth(2)).collect();
    assert_eq!(names.len(), 8);
    let plain: Vec<&str> = named.lines().filter(|line| !is_name(line)).collect();
    let named = TOOL.file("names-in.txt", named.as_bytes());
    let plain = TOOL.file("names-out.txt", plain.join("\n").as_bytes());
    let turns = |table: &str, name: &str| {
        let handed = "hand in 0 send caller 0 endpoint 1 message 5\nturn\nhand in 3 words F0000005";
        let text = format!("table {table}\n{handed}\nhand in 2 my-rights caller 2\n");
        TOOL.file(name, text.as_bytes())
    };
    let turns = [
        turns(&named, "turns-in.txt"),
        turns(&plain, "turns-out.txt"),
    ];
    for (line, with, without) in [
        (&["show", "--run"][..], &named, &plain),
        (&["commission", "--purged", "3"], &named, &plain),
        (&["turns"], &turns[0], &turns[1]),
    ] {
        let of = |path: &String| {
            TOOL.printed(&[line, &[path]].concat())
                .replace(path, "FILE")
        };
        let (with, without) = (of(with), of(without));
        assert!(with.contains("domain 0 (link)"), "{with}");
        let words: Vec<&str> = without.split_whitespace().collect();
        assert_eq!(words_without(&names, &with), words);
    }
}

#[test]
fn an_input_is_shown_in_words_and_as_a_picture() {
    let input = TOOL.file("show.bin", worked_example());
    let out = TOOL.file("show.svg", b"");
    let shown = TOOL.printed(&["show", &input, "--svg", &out]);
    assert!(shown.contains("domain 1 grants domain 0 SEND on domain 2"));
    assert!(!shown.contains("->"), "{shown}");
    let ran = TOOL.printed(&["show", &input, "--run"]);
    assert!(ran.contains("-> message 6; 1 lost so far\n"), "{ran}");
    let picture = fs::read_to_string(&out).expect("the picture is there");
    assert!(picture.starts_with("<svg ") && picture.ends_with("</svg>\n"));
}

#[test]
fn a_run_has_the_table_after_it_in_the_picture() {
    let input = TOOL.file("run-picture.bin", worked_example());
    let (out, ran) = (TOOL.file("plain.svg", b""), TOOL.file("ran.svg", b""));
    assert_eq!(TOOL.status(&["show", &input, "--svg", &out]), 0);
    assert_eq!(TOOL.status(&["show", &input, "--run", "--svg", &ran]), 0);
    let read = |path: &str| fs::read_to_string(path).expect("the picture is there");
    assert!(!read(&out).contains("After the list"));
    assert!(read(&ran).contains("After the list"));
}

/// The example of a line with names.
const INFLUENCE: &str = concat!(env!("CARGO_MANIFEST_DIR"), "/examples/influence.txt");

#[test]
fn a_graph_is_written_that_other_tools_take() {
    let out = TOOL.file("graph.dot", b"");
    let line = ["show", INFLUENCE, "--run", "--dot", &out];
    let shown = TOOL.printed(&line);
    assert!(
        shown.ends_with(&format!("picture written to {out}\n")),
        "{shown}"
    );
    let graph = fs::read_to_string(&out).expect("the graph is there");
    assert!(graph.starts_with("digraph line {\n") && graph.ends_with("}\n"));
    assert!(graph.contains("label=\"0 link\""), "{graph}");
    assert!(
        graph.contains("d2 -> d5 [label=\"GRANT since the list\""),
        "{graph}"
    );
    match Command::new("dot").args(["-Tsvg", &out]).output() {
        Ok(drawn) => {
            assert!(
                drawn.status.success() && drawn.stderr.is_empty(),
                "{drawn:?}"
            );
            let drawn = String::from_utf8(drawn.stdout).expect("text");
            assert_eq!(drawn.matches("class=\"cluster\"").count(), 2);
        }
        Err(_) => println!("skipped: there is no program dot here to take the graph"),
    }
    let input = TOOL.file("not-overwritten.txt", b"table 10000100 20000000");
    assert!(TOOL
        .complaint(&["show", &input, "--dot", &input])
        .contains("--dot"));
    assert_eq!(TOOL.status(&["show", &input, "--dot", &input]), 2);
    let both = ["show", &input, "--svg", &out, "--dot", &out];
    assert!(TOOL
        .complaint(&both)
        .contains("--svg and --dot need a file each"));
    assert_eq!(TOOL.status(&both), 2);
}

#[test]
fn whether_calls_count_is_answered_by_the_first_line() {
    let line = INFLUENCE;
    let counts = TOOL.printed(&["influence", line, "link", "drive-5"]);
    assert!(
        counts.starts_with(
            "In this list: call 0 of domain 0 (link) counts for domain 5 (drive-5).\nIn this table \
             a chain of rights leads from domain 0 (link) to domain 5 (drive-5): domain 0 (link) \
             has SEND on domain 1 (loader), domain 1 (loader) has GRANT+REMOVE on domain 5 \
             (drive-5).\n"
        ),
        "{counts}"
    );
    let one = "Purged for domain 5 (drive-5) are 1 of the 2 calls that domain 0 (link) makes";
    assert!(counts.contains(one), "{counts}");
    let joins = "kept: domain 2 (chute) joins the source set here by GRANT on domain 5 (drive-5)";
    assert!(counts.contains(joins), "{counts}");
    let later = TOOL.printed(&["influence", line, "chute", "5"]);
    assert!(
        later.starts_with(
            "In this list: calls 3 and 4 of domain 2 (chute) count for domain 5 (drive-5).\nIn \
             this table no chain of rights leads from domain 2 (chute) to domain 5 (drive-5); \
             after call 2 one does: domain 2 (chute) has GRANT on domain 5 (drive-5).\n"
        ),
        "{later}"
    );
    let own = TOOL.printed(&["influence", line, "5", "5"]);
    assert!(own.starts_with("domain 5 (drive-5) is always in its own source set, without any"));
}

#[test]
fn what_could_count_is_answered_by_the_calls_and_what_never_can_by_why() {
    let line = INFLUENCE;
    let could = TOOL.printed(&["influence", line, "drive-4", "drive-3"]);
    assert!(
        could.starts_with(
            "Not in this list, but it could: by these calls of domain 1 (loader), domain 2 (chute) \
             and domain 4 (drive-4), which the proved kernel does, domain 4 (drive-4) is in the \
             source set of domain 3 (drive-3):\n  domain 1 (loader) grants domain 2 (chute) \
             SEND+GRANT on domain 2 (chute)\n  domain 2 (chute) grants domain 4 (drive-4) \
             SEND+GRANT on domain 2 (chute)\n  domain 4 (drive-4) asks for its rights\n  domain 2 \
             (chute) asks for its rights\nIn this table no chain of rights leads"
        ),
        "{could}"
    );
    let never = TOOL.printed(&["influence", line, "5", "0"]);
    assert!(
        never.starts_with(
            "Never: whatever calls are made, by whomever, nothing that domain 5 (drive-5) does \
             shows at domain 0 (link). This is proved.\nAll that it could ever have a chain of \
             rights to is domain 2 (chute), domain 3 (drive-3) and domain 4 (drive-4).\n"
        ),
        "{never}"
    );
    let apart = TOOL.printed(&["influence", line, "panel", "drive-3"]);
    let why = "proved.\nThe two are in connected components that no list can join.\n";
    assert!(
        apart.starts_with("Never: ") && apart.contains(why),
        "{apart}"
    );
    assert!(apart.contains("Purged for domain 3 (drive-3) is all that domain 7 (panel) does"));
    assert_eq!(
        TOOL.status(&["influence", line, "5", "0"]),
        0,
        "it is an answer"
    );
}

#[test]
fn all_chains_and_source_sets_are_printed() {
    let input = TOOL.file("influence.bin", worked_example());
    let all = TOOL.printed(&["influence", &input]);
    let chain = "\n    domain 0 has SEND on domain 1, domain 1 has SEND+GRANT+REMOVE on domain \
                 2\n";
    assert!(all.contains(chain), "{all}");
    // Document 01, P12: four of the nine calls are purged for domain 1.
    let set = "Source set of domain 1 along the list, from its end back: 5 of 9 calls kept\n  at \
               call 7: domain 0";
    assert!(all.contains(set), "{all}");
    let never = "Never, whatever calls are made: nothing that these do shows at\n  domain 2: ";
    assert!(all.contains(never), "{all}");
    assert!(!all.to_lowercase().contains("road"), "{all}");
}

#[test]
fn what_cannot_be_answered_is_said() {
    let input = TOOL.file("no-influence.bin", worked_example());
    for (line, why) in [
        (vec!["influence"], "no file is given"),
        (vec!["influence", &input, "3"], "there is no domain 3"),
        (
            vec!["influence", &input, "0", "3"],
            "there is no domain 3: the table has 0 to 2",
        ),
        (
            vec!["influence", &input, "0", "link"],
            "the input names none",
        ),
        (
            vec!["influence", &input, "0", "1", "2"],
            "`2` is not expected",
        ),
    ] {
        assert_eq!(TOOL.status(&line), 2, "{line:?}");
        assert!(
            TOOL.complaint(&line).contains(why),
            "{}",
            TOOL.complaint(&line)
        );
    }
    let mut table = TABLE_T;
    table[9] = 0x2000_0010;
    let refused = TOOL.file(
        "no-influence-refused.bin",
        &to_bytes(&[&[34], &table[..]].concat()),
    );
    assert_eq!(TOOL.status(&["influence", &refused]), 1);
    assert!(TOOL
        .printed(&["influence", &refused])
        .starts_with("table refused with 4"));
    assert_eq!(
        TOOL.status(&[
            "influence",
            &TOOL.file("no-influence-short.bin", &worked_example()[..50])
        ]),
        1
    );
}

#[test]
fn a_picture_that_cannot_be_written_leaves_everything_as_it_was() {
    let input = TOOL.file("kept.bin", worked_example());
    let nowhere = TOOL.run(&["show", &input, "--svg", "/no/such/place.svg"]);
    assert_eq!(nowhere.status.code(), Some(2));
    assert!(nowhere.stdout.is_empty(), "nothing is shown before");
    assert!(TOOL
        .complaint(&["show", &input, "--svg", "--calls"])
        .contains("write ./--calls"));
    let link = format!("{input}.link");
    let _ = fs::remove_file(&link);
    fs::hard_link(&input, &link).expect("a link can be made");
    for same in [&input, &link] {
        let line = ["show", &input, "--svg", same];
        assert_eq!(TOOL.status(&line), 2);
        assert!(
            TOOL.complaint(&line).contains("is the input"),
            "{}",
            TOOL.complaint(&line)
        );
    }
    assert_eq!(
        fs::read(&input).expect("it is still there"),
        worked_example()
    );
}

#[test]
fn a_table_on_which_everything_can_be_shown_leaves_nothing_unshown() {
    let ring = concat!(env!("CARGO_MANIFEST_DIR"), "/examples/ring.txt");
    let input = TOOL.file("ring.bin", &TOOL.run(&["write", ring]).stdout);
    let list = TOOL.printed(&["commission", &input]);
    assert!(!list.contains("not shown"), "{list}");
    assert!(list.ends_with("summary: 4 passed, 0 failed\n"), "{list}");
}

#[test]
fn the_drills_and_the_campaign_are_reported_with_their_tables() {
    let input = TOOL.file("drills.bin", worked_example());
    let list = TOOL.printed(&["commission", &input, "--campaign", "500"]);
    for part in [
        "    drills on this table, and tables of n 1, 2, 8, 9, 15 and 16 with m 0, 1, 31 and 32",
        "    two refusals of one call at once: 53 pairs by 8 kinds; never both: 14 and 15 of kind 1",
        "    a campaign with seed 1: 500 runs and 2000 table images, drawn\n",
        "    what no run from outside can show: ",
    ] {
        assert!(list.contains(part), "{list}");
    }
}

/// A call of each kind, as `balkwizu read` writes it, and the text of its words.
const CALLS: &str = "\
look-up caller 1 name 17
send caller 0 endpoint 1 message 5
receive caller 2 endpoint 1
my-endpoints caller 2
my-rights caller 0
grant caller 1 target 2 recipient 0 rights 1
remove caller 1 target 2 rights 4
revoke caller 1 target 2 holder 3 rights 8
";

const WORDS: &str = "\
list
10400000 F0000011
20000100 F0000005
30800100
40800000
50000000
60420001
70420004
80420308
";

#[test]
fn calls_to_a_list_and_back() {
    let calls = TOOL.file("calls.txt", CALLS.as_bytes());
    assert_eq!(TOOL.printed(&["write", &calls, "--hex"]), WORDS);
    let words = TOOL.file("calls-words.txt", WORDS.as_bytes());
    assert_eq!(TOOL.printed(&["read", &words]), CALLS);
    assert_eq!(
        (
            TOOL.status(&["write", &calls, "--hex"]),
            TOOL.status(&["read", &words])
        ),
        (0, 0)
    );
    let nothing = TOOL.file("no-calls.txt", b"calls  # no call\n");
    assert_eq!(TOOL.printed(&["write", &nothing, "--hex"]), "list\n");
    assert!(TOOL
        .complaint(&["write", &calls])
        .contains("calls alone need --table LINE, or --hex"));
    let nothing = TOOL.file("no-words.txt", b"list\n");
    assert_eq!(TOOL.printed(&["read", &nothing]), "");
    assert_eq!(TOOL.status(&["read", &nothing]), 0);
}

#[test]
fn calls_to_an_input_and_back() {
    let calls = TOOL.file("input-calls.txt", CALLS.as_bytes());
    let table = TOOL.file("input-table.bin", worked_example());
    let input = TOOL.run(&["write", &calls, "--table", &table]).stdout;
    assert_eq!(input[..4 * 35], worked_example()[..4 * 35]);
    assert_eq!(input.len(), 4 * (35 + 10));
    let path = TOOL.file("input-written.bin", &input);
    assert_eq!(TOOL.printed(&["read", "--calls", &path]), CALLS);
    // the same by texts: as one, and put together
    let text = TOOL.printed(&["write", &calls, "--table", &table, "--hex"]);
    let by_text = TOOL.file("input-text.txt", text.as_bytes());
    assert_eq!(TOOL.run(&["write", &by_text]).stdout, input);
    assert_eq!(TOOL.printed(&["read", "--calls", &by_text]), CALLS);
    assert_eq!(
        TOOL.run(&["write", &calls, "--table", &by_text]).stdout,
        input
    );
    let together = format!("table {}\n{WORDS}", hex(&TABLE_T));
    let together = TOOL.file("input-together.txt", together.as_bytes());
    assert_eq!(TOOL.run(&["write", &together]).stdout, input);
    // and the calls of an input, put behind its own table
    let back = TOOL.file(
        "input-back.txt",
        TOOL.printed(&["read", "--calls", &path]).as_bytes(),
    );
    assert_eq!(TOOL.run(&["write", &back, "--table", &path]).stdout, input);
    assert_eq!(TOOL.status(&["show", &path]), 0);
}

#[test]
fn a_line_in_words_goes_both_ways() {
    let input = TOOL.file("described.bin", worked_example());
    let text = TOOL.printed(&["read", &input]);
    assert!(text.starts_with("domain d0\ndomain d1\n"), "{text}");
    assert!(text.contains("\nrights d1 on d2: SEND+GRANT+REMOVE\n"));
    assert!(text.contains("\n  d1 grants d0 SEND on d2\n"));
    assert!(text.contains("\n  words F0000009\n"));
    let described = TOOL.file("described.txt", text.as_bytes());
    assert_eq!(TOOL.run(&["write", &described]).stdout, worked_example());
    assert_eq!(TOOL.status(&["show", &described]), 0);
    let wrong = TOOL.file(
        "described-wrong.txt",
        b"domain link\nendpoint e owner lnik capacity 1\nrights link at link: SEND",
    );
    let reported = TOOL.complaint(&["show", &wrong]);
    assert!(reported.contains("line 2, column 18: `lnik`: no domain has this name; did you mean"));
    assert!(reported.contains("\nline 3, column 13: `on` is wanted here, not `at`"));
    assert_eq!(TOOL.status(&["show", &wrong]), 2);
    let warned = TOOL.file(
        "described-warned.txt",
        b"domain link\ncalls\n  7 asks for its rights",
    );
    assert!(TOOL
        .complaint(&["show", &warned])
        .contains("line 3: the table has no domain 7\n"));
    assert_eq!(TOOL.status(&["show", &warned]), 0);
}

#[test]
fn any_calls_go_both_ways() {
    let mut rng = Rng::new(8);
    for words in [1, 300, 4096] {
        let calls = values_of_words(&mut rng, words);
        let mut list = vec![0; words];
        assert_eq!(reference::write(&calls, &mut list), (0, words));
        let lines: Vec<String> = reference::cut(&list)
            .iter()
            .map(|call| hex(&call.words()) + "\n")
            .collect();
        let text = format!("list\n{}", lines.concat());
        let words = TOOL.file("any-words.txt", text.as_bytes());
        let read = TOOL.file("any-calls.txt", TOOL.printed(&["read", &words]).as_bytes());
        assert_eq!(TOOL.printed(&["write", &read, "--hex"]), text);
    }
}

#[test]
fn the_example_of_calls_runs_on_the_worked_table() {
    let folder = env!("CARGO_MANIFEST_DIR");
    let calls = format!("{folder}/examples/calls.txt");
    let table = format!("{folder}/examples/worked.txt");
    let input = TOOL.run(&["write", &calls, "--table", &table]).stdout;
    let printed = String::from_utf8(reference::linerun(&input)).expect("text");
    let codes: Vec<&str> = printed
        .lines()
        .skip(1)
        .map(|line| line.split(' ').nth(7).expect("a code"))
        .collect();
    assert_eq!(codes, ["0", "17", "0", "0", "0", "0", "0", "0", "22"]);
}

#[test]
fn every_mistake_in_calls_is_reported_by_line_and_column() {
    let text = "# calls\n\nsend-to caller 0\nsend caller 0 to 1 message 5\nmy-rights caller 64\n";
    let path = TOOL.file("wrong-calls.txt", text);
    let (status, _, reported) = TOOL.ran(&["write", &path, "--hex"]);
    assert_eq!(status, 2);
    let lines: Vec<&str> = reported.lines().collect();
    assert!(lines[0].contains("line 3, column 1: there is no call `send-to`, only look-up, send,"));
    let field = "line 4, column 15: send has no field `to`, only caller, endpoint, message";
    assert_eq!(lines[1], field);
    let bits = "line 5, column 18: caller 64 exceeds its 6 bits: 63 is the largest";
    assert_eq!(lines[2..], [bits]);
    let long = "my-rights caller 0\n".repeat(4095) + "\nsend caller 0 endpoint 0 message 0\n";
    let (status, _, reported) = TOOL.ran(&["write", &TOOL.file("long.txt", long), "--hex"]);
    assert_eq!(status, 2);
    assert!(reported.contains("line 4097, column 1: the list has more than 4,096 words here"));
    assert_eq!(TOOL.status(&["write", "/no/such/file"]), 2);
    assert_eq!(TOOL.status(&["write", "-", "--table", "-"]), 2);
}

#[test]
fn calls_take_the_names_that_the_table_gives() {
    let four = in_examples("four.txt");
    let named = TOOL.file("named.txt", b"send caller link endpoint routes message 5\n");
    let plain = TOOL.file("plain.txt", b"send caller 0 endpoint 1 message 5\n");
    let written = |calls: &str| TOOL.run(&["write", calls, "--table", &four]).stdout;
    assert_eq!(written(&named), written(&plain));
    assert_eq!(TOOL.status(&["write", &named, "--table", &four]), 0);
    let other = TOOL.file("other.txt", b"\nmy-rights caller belts\n");
    let line = ["write", &other, "--table", &four];
    assert!(
        TOOL.complaint(&line)
            .contains("line 2, column 18: caller is `belts`"),
        "{}",
        TOOL.complaint(&line)
    );
    assert_eq!(TOOL.status(&line), 2);
}

#[test]
fn calls_behind_a_damaged_table_are_written_with_a_warning() {
    let (calls, damaged) = (in_examples("calls.txt"), in_examples("damaged.txt"));
    let ran = TOOL.run(&["write", &calls, "--table", &damaged]);
    assert_eq!(ran.status.code(), Some(0));
    assert!(!ran.stdout.is_empty());
    let said = String::from_utf8(ran.stderr).expect("text");
    let wanted = "damaged.txt is written, and will be refused with 4 (a rights word";
    assert!(said.contains(wanted), "{said}");
}

#[test]
fn calls_are_read_with_names_in_comments() {
    let text = format!("domain 0 link\nlist {}\n", "20000100 F0000005");
    let named = TOOL.file("read-named.txt", text.as_bytes());
    let read = TOOL.printed(&["read", &named]);
    let (call, comment) = read.split_once("  # ").expect("a comment");
    assert_eq!(call.trim_end(), "send caller 0 endpoint 1 message 5");
    assert_eq!(comment, "domain 0 (link) sends 5 to endpoint 1\n");
    let calls = TOOL.file("read-again.txt", read.as_bytes());
    assert_eq!(
        TOOL.printed(&["write", &calls, "--hex"]),
        "list\n20000100 F0000005\n"
    );
    let table = concat!(env!("CARGO_MANIFEST_DIR"), "/examples/four.txt");
    let whole = TOOL.printed(&["write", &calls, "--table", table, "--hex"]);
    assert!(
        whole.starts_with("domain 0 link\ndomain 1 loader\n"),
        "{whole}"
    );
}

#[test]
fn a_call_that_the_reader_refuses_is_reported_by_number_and_code() {
    let input = TOOL.file("refused.bin", worked_example());
    assert_eq!(TOOL.status(&["read", "--calls", &input]), 1);
    assert_eq!(TOOL.printed(&["read", "--calls", &input]), "");
    assert_eq!(
        TOOL.complaint(&["read", "--calls", &input]),
        "balkwizu read: call 6 is refused with 10 (a word of kind 15 stands alone): a stray word \
         with content 9\n"
    );
    // Kind 9; a caller that no table has; a receive with C; a send alone.
    let words = TOOL.file("refused.txt", b"list 90000000 5FC00000 30000001 20000000");
    let said_ = TOOL.complaint(&["read", &words]);
    let codes: Vec<&str> = said_.lines().map(|line| &line[15..40]).collect();
    let wanted = [
        "call 0 is refused with 11",
        "call 2 is refused with 13",
        "call 3 is refused with 14",
    ];
    assert_eq!(codes, wanted);
    let many = TOOL.file("refused-many.txt", b"list F0000000*13");
    assert!(TOOL
        .complaint(&["read", &many])
        .ends_with("balkwizu read: 3 calls more\n"));
    let long = TOOL.file("refused-long.txt", b"list 50000000*4097");
    assert!(TOOL
        .complaint(&["read", &long])
        .contains("is refused with 1 ("));
    let cut = TOOL.file("refused-cut.bin", &worked_example()[..50]);
    assert!(TOOL
        .complaint(&["read", &cut])
        .contains("is refused with 7 ("));
    assert_eq!(TOOL.status(&["read", &cut]), 1);
}

#[test]
fn a_worn_table_is_repaired_and_its_old_words_are_put_back() {
    let mut worn = TABLE_T;
    (worn[6], worn[24]) = (0x2000_0017, 0x5000_0009);
    let input = TOOL.file(
        "worn.bin",
        &to_bytes(&[&[34], &worn[..], &LIST_L[..]].concat()),
    );
    assert!(TOOL
        .printed(&["commission", &input])
        .contains("`balkwizu repair "));
    let (sound, list, back) = (
        TOOL.path("sound.bin"),
        TOOL.path("list.bin"),
        TOOL.path("back.bin"),
    );
    let said = TOOL.printed(&["repair", &input, &sound, "--changes", &list]);
    assert!(said.starts_with("2 words altered\n  word 6, "), "{said}");
    assert!(
        said.contains("the queue of endpoint 1 (name 18) is empty"),
        "{said}"
    );
    assert_eq!(TOOL.status(&["commission", &sound]), 0);
    assert_eq!(TOOL.status(&["repair", &sound, &back, "--undo", &list]), 0);
    assert_eq!(fs::read(&back).unwrap(), fs::read(&input).unwrap());
    let image = TOOL.file("worn.image", &to_bytes(&worn));
    assert_eq!(TOOL.status(&["repair", &image, &back, "--image"]), 0);
    assert_eq!(
        fs::read(&back).unwrap(),
        fs::read(&sound).unwrap()[4..4 + 4 * 34]
    );
}

#[test]
fn a_worn_table_may_be_a_text_with_names() {
    let mut worn = TABLE_T;
    worn[24] = 0x5000_0009;
    let text = format!("endpoint 1 belts\ntable {}\n", hex(&worn));
    let typed = TOOL.file("worn.txt", text.as_bytes());
    let out = TOOL.path("worn-sound.bin");
    let said = TOOL.printed(&["repair", &typed, &out]);
    let emptied = "the queue of endpoint 1 (belts, name 18) is empty";
    assert!(said.contains(emptied), "{said}");
    let mut sound = worked_example();
    sound.truncate(4 * (1 + 34));
    assert_eq!(fs::read(&out).unwrap(), sound);
}

#[test]
fn a_repaired_text_keeps_its_names_where_a_text_is_asked_for() {
    let damaged = in_examples("damaged.txt");
    let (out, text) = (TOOL.path("fit.bin"), TOOL.path("fit.txt"));
    let said_ = TOOL.printed(&["repair", &damaged, &out]);
    let without = format!("{out} is an input of linerun, which has no names: --text writes");
    assert!(said_.contains(&without), "{said_}");
    let said_ = TOOL.printed(&["repair", &damaged, &text, "--text"]);
    assert!(!said_.contains("has no names"), "{said_}");
    let written = fs::read_to_string(&text).unwrap();
    assert!(written.starts_with("domain 0 link\n"), "{written}");
    assert_eq!(TOOL.run(&["write", &text]).stdout, fs::read(&out).unwrap());
    assert!(TOOL.printed(&["show", &text]).contains("domain 0 (link)"));
    // What has no names to lose says nothing of them.
    let again = TOOL.printed(&["repair", &out, &TOOL.path("again.bin")]);
    assert_eq!(again, "nothing to repair: the table is sound\n");
    let both = ["repair", &out, &text, "--image", "--text"];
    assert!(TOOL.complaint(&both).contains("--text is not for --image"));
    assert_eq!(TOOL.status(&both), 2);
}

#[test]
fn a_repair_writes_over_nothing_that_it_reads_or_wrote() {
    let damaged = TOOL.file(
        "damaged.txt",
        &fs::read(in_examples("damaged.txt")).unwrap(),
    );
    let (out, list) = (TOOL.path("fit.bin"), TOOL.path("changes"));
    let kept = |path: &str| fs::read(path).expect("it is there");
    assert_eq!(
        TOOL.status(&["repair", &damaged, &out, "--changes", &list]),
        0
    );
    let before = [&damaged, &out, &list].map(|path| kept(path));
    let dotted = format!("{}/./fit.bin", TOOL.path(""));
    for (line, why) in [
        (
            ["repair", &damaged, &out, "--changes", &damaged],
            "is the input",
        ),
        (
            ["repair", &damaged, &out, "--changes", &out],
            "need a file each",
        ),
        (
            ["repair", &damaged, &out, "--changes", &dotted],
            "need a file each",
        ),
        (["repair", &out, &list, "--undo", &list], "is the input"),
        (["repair", &damaged, "-", "--changes", &list], "write ./-"),
        (
            ["repair", "-", &out, "--undo", "-"],
            "can be read once only",
        ),
    ] {
        assert_eq!(TOOL.status(&line), 2, "{line:?}");
        assert!(
            TOOL.complaint(&line).contains(why),
            "{}",
            TOOL.complaint(&line)
        );
    }
    assert_eq!([&damaged, &out, &list].map(|path| kept(path)), before);
    // A list with a word or a byte too many is none.
    for more in [1, 4] {
        let odd = [kept(&list), vec![0; more]].concat();
        let odd = TOOL.file("odd", &odd);
        let line = ["repair", &out, &TOOL.path("back.bin"), "--undo", &odd];
        assert_eq!(TOOL.status(&line), 1);
        assert!(TOOL
            .printed(&line)
            .contains("is no list of changes of this table"));
    }
    let one = TOOL.file("one", &kept(&list)[..8]);
    let line = ["repair", &out, &TOOL.path("back.bin"), "--undo", &one];
    assert_eq!(TOOL.printed(&line), "1 old word put back\n");
}

#[test]
fn what_cannot_be_repaired_is_told_and_nothing_is_written() {
    let mut worn = TABLE_T;
    worn[10] = 0x3000_0000;
    let image = TOOL.file("nameless.image", &to_bytes(&worn));
    let out = TOOL.path("never.bin");
    let _ = fs::remove_file(&out);
    let line = ["repair", &image, &out, "--image"];
    assert_eq!(TOOL.status(&line), 1);
    let said = TOOL.printed(&line);
    assert!(
        said.starts_with("refused with 33") && said.contains("the name is 0"),
        "{said}"
    );
    assert!(fs::metadata(&out).is_err());
    assert_eq!(TOOL.status(&["repair", &image, &image, "--image"]), 2);
    assert_eq!(TOOL.status(&["repair", &image, "--image"]), 1);
}

fn in_examples(name: &str) -> String {
    format!("{}/examples/{name}", env!("CARGO_MANIFEST_DIR"))
}

#[test]
fn a_slip_in_a_command_is_told_with_what_is_meant() {
    assert!(TOOL
        .complaint(&["comission", "x"])
        .contains("(is `commission` meant?)"));
    assert!(!TOOL.complaint(&["frobnicate"]).contains("meant"));
    assert!(TOOL
        .complaint(&["show", "--png"])
        .ends_with("there is no option --png; --help lists them\n"));
    assert!(TOOL
        .complaint(&["show"])
        .contains("--help says what is wanted"));
    assert!(TOOL.complaint(&["repair"]).contains("no file is given"));
    let named = ["influence", "link", "loader", &in_examples("four.txt")];
    assert!(TOOL
        .complaint(&named)
        .ends_with("FILE comes first, then the domains\n"));
}

#[test]
fn the_numbers_of_refusals_are_told() {
    let two = "17  the caller has no SEND on the endpoint's owner\n19  nothing waits\n";
    assert_eq!(TOOL.printed(&["codes", "17", "19"]), two);
    let all = TOOL.printed(&["codes"]);
    for code in (0..8).chain(10..24).chain(30..38).chain([99]) {
        assert!(all.contains(&format!("\n  {code:>2}  ")), "{code}: {all}");
    }
    for none in ["8", "x", "-1", "100"] {
        assert_eq!(TOOL.status(&["codes", none]), 2, "{none}");
    }
}

#[test]
fn a_text_of_another_kind_is_told_with_the_command_for_it() {
    let calls = in_examples("calls.txt");
    assert!(TOOL
        .complaint(&["show", &calls])
        .contains("calls alone are for `balkwizu write --table`"));
    assert!(TOOL
        .complaint(&["show", &in_examples("turns.txt")])
        .contains("only `balkwizu turns` takes"));
    assert!(TOOL
        .complaint(&["write", &in_examples("four.txt"), "--table", &calls])
        .contains("calls alone are for"));
    let four = in_examples("four.txt");
    assert!(TOOL
        .complaint(&["write", &four, "--table", &four])
        .contains("has a table: --table is for calls alone"));
    let named = TOOL.file("named-caller.txt", b"my-rights caller link\n");
    assert!(TOOL
        .complaint(&["write", &named])
        .contains("no names are given here"));
    let right = TOOL.file("no-right.txt", b"remove caller 1 target 2 rights SIT\n");
    assert!(TOOL
        .complaint(&["write", &right])
        .contains("a set is written as SEND+GRANT"));
    let lines = TOOL.file("printed-lines.txt", PRINTED.as_bytes());
    assert!(TOOL
        .complaint(&["show", &lines])
        .contains("a line that linerun prints"));
}

#[test]
fn a_folder_that_there_is_not_is_told_before_anything_is_done() {
    let four = in_examples("four.txt");
    for line in [
        ["commission", &four, "--report", "/no/such/x.html"],
        ["commission", &four, "--json", "/no/such/x.json"],
        ["show", &four, "--svg", "/no/such/x.svg"],
    ] {
        let ran = TOOL.run(&line);
        assert_eq!(ran.status.code(), Some(2), "{line:?}");
        assert!(ran.stdout.is_empty(), "{line:?}");
        assert!(TOOL
            .complaint(&line)
            .ends_with(": there is no folder /no/such\n"));
    }
    assert!(TOOL
        .complaint(&["show", &four, "--svg", "/"])
        .contains("--svg / is a folder"));
    let damaged = in_examples("damaged.txt");
    assert!(TOOL
        .complaint(&["repair", &damaged, "/no/such/x"])
        .contains("there is no folder /no/such"));
    let out = TOOL.path("kept-away.bin");
    let _ = fs::remove_file(&out);
    let changes = ["repair", &damaged, &out, "--changes", "/no/such/x"];
    assert_eq!(TOOL.status(&changes), 2);
    assert!(fs::metadata(&out).is_err(), "nothing is written before");
}

#[test]
fn a_damaged_table_is_told_with_what_mends_it() {
    let damaged = in_examples("damaged.txt");
    for command in ["show", "influence", "commission"] {
        let said = TOOL.printed(&[command, &damaged]);
        let mend = format!(
            "`balkwizu repair {damaged} OUT` makes it fit again; without OUT it only says how\n"
        );
        assert!(said.ends_with(&mend), "{said}");
        assert_eq!(TOOL.status(&[command, &damaged]), 1);
    }
    let out = TOOL.path("mended.bin");
    assert_eq!(TOOL.status(&["repair", &damaged, &out]), 0);
    assert_eq!(TOOL.status(&["show", &out]), 0);
    let four = TOOL.printed(&["show", &in_examples("four.txt")]);
    assert!(!four.contains("balkwizu repair"));
}

#[test]
fn a_card_has_a_text() {
    let card = TOOL.file("card.image", &to_bytes(&TABLE_T));
    let text = TOOL.printed(&["read", "--hex", "--image", &card]);
    let typed = TOOL.file("card.txt", text.as_bytes());
    let input = TOOL.run(&["write", &typed]).stdout;
    assert_eq!(input, to_bytes(&[&[34], &TABLE_T[..]].concat()));
    assert!(TOOL
        .printed(&["show", &card])
        .contains("`balkwizu read --image FILE`"));
    let described = TOOL.printed(&["read", "--image", &card]);
    let described = TOOL.file("described.txt", described);
    assert_eq!(TOOL.run(&["write", &described]).stdout, input);
    assert!(TOOL
        .complaint(&["read", "--hex", "--calls", &card])
        .contains("--calls is not for --hex"));
    let cut = TOOL.file("cut.image", &to_bytes(&TABLE_T)[..30]);
    assert_eq!(TOOL.status(&["read", "--hex", "--image", &cut]), 1);
    assert!(TOOL
        .complaint(&["read", "--hex", "--image", &cut])
        .contains("2 bytes left over"));
    let long = TOOL.file("long.image", &[0; 4 * 642]);
    assert!(TOOL
        .complaint(&["read", "--hex", "--image", &long])
        .contains("more than the 641 words"));
}

#[test]
fn what_a_controller_answered_to_the_plain_line_is_in_order() {
    let [four, answers, left] = ["four.txt", "answers.txt", "left.txt"].map(in_examples);
    let line = ["commission", &four, "--answers", &answers, "--left", &left];
    let said = TOOL.printed(&line);
    assert!(said.contains("summary: 4 passed, 0 failed"), "{said}");
    let exchanged = ["commission", &four, "--answers", &left, "--left", &answers];
    assert_eq!(TOOL.status(&exchanged), 1);
}
