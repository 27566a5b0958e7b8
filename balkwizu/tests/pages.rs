//! What is for people to look at, as the program makes it: why a call is refused, what
//! differs between two tables, what a run leaves in files, and the page to step through,
//! in a browser where there is one.

use std::fs;
use std::process::Command;

use line::trial::{worked_example, Trial};
use reference::cut;
use reference::example::{LIST_L, PRINTED, TABLE_T};
use reference::influence::tables_before;
use reference::table::{domains, endpoint_words, endpoints, lost, rights, waiting, SLOTS_PLACE};
use reference::words::{content, to_bytes};

const TOOL: Trial = Trial {
    program: env!("CARGO_BIN_EXE_balkwizu"),
    folder: env!("CARGO_TARGET_TMPDIR"),
};

const LINE: &str = "\
domain link
domain loader
domain chute
endpoint routes owner loader capacity 4
rights link on loader: SEND
rights loader on loader: SEND+REVOKE
rights loader on link: SEND
rights chute on loader: SEND
calls
  link sends 65 to routes
  loader takes SEND on loader back from link
  link sends 66 to routes
";

#[test]
fn the_help_says_how_each_command_ends() {
    for command in ["compare", "run"] {
        let (status, help, _) = TOOL.ran(&[command, "--help"]);
        assert_eq!(status, 0);
        assert!(help.starts_with(&format!("balkwizu {command} ")), "{help}");
        assert!(help.contains("\nExit status: 0 "), "{help}");
        assert!(TOOL
            .ran(&["--help"])
            .1
            .contains(&format!("  balkwizu {command} ")));
    }
}

#[test]
fn a_refused_call_is_shown_with_its_reason() {
    let line = TOOL.file("line.txt", LINE);
    let picture = TOOL.path("line.svg");
    let (status, printed, _) = TOOL.ran(&["show", &line, "--run", "--svg", &picture]);
    assert_eq!(status, 0);
    let why = "-> refused with 17: domain 0 (link) has no SEND on domain 1 (loader), the owner of \
               endpoint 0 (routes); domain 1 (loader) and domain 2 (chute) hold it; call 1 \
               (domain 1 (loader) takes SEND on domain 1 (loader) back from domain 0 (link)) took \
               it away\n";
    assert!(printed.contains(why), "{printed}");
    let drawn = fs::read_to_string(picture).unwrap();
    assert!(drawn.contains("refused with 17: domain 0 (link) has no SEND"));
}

#[test]
fn tables_are_compared_in_each_form() {
    let plan = TOOL.file("plan.txt", LINE);
    let card = TOOL.file(
        "card.txt",
        LINE.replace("chute on loader: SEND", "chute on loader: GRANT"),
    );
    let (status, printed, said) = TOOL.ran(&["compare", &card, &plan]);
    let wanted =
        "altered  the rights of domain 2 (chute) on domain 1 (loader): GRANT, in the plan \
                  SEND\n1 difference: 1 altered\n";
    assert_eq!((status, printed.as_str(), said.as_str()), (1, wanted, ""));
    let (status, printed, _) = TOOL.ran(&["compare", &plan, &plan]);
    assert_eq!(
        (status, printed.as_str()),
        (0, "the same: 3 domains, 1 endpoint\n")
    );
    let input = TOOL.file("input.bin", worked_example());
    let image = TOOL.file("image.bin", to_bytes(&TABLE_T));
    let words = concat!(env!("CARGO_MANIFEST_DIR"), "/examples/worked.txt");
    assert_eq!(TOOL.ran(&["compare", &input, words]).0, 0);
    assert_eq!(TOOL.ran(&["compare", &image, words, "--image"]).0, 0);
    assert_eq!(TOOL.ran(&["compare", words, &image, "--image"]).0, 0);
    assert_eq!(TOOL.ran(&["compare", &image, &image, "--image"]).0, 0);
}

#[test]
fn what_cannot_be_compared_is_said() {
    let plan = TOOL.file("plan.txt", LINE);
    let image = TOOL.file("image.bin", to_bytes(&TABLE_T));
    let (status, _, said) = TOOL.ran(&["compare", &image, &plan]);
    assert_eq!(status, 2);
    assert!(said.contains("image.bin is refused with 7"), "{said}");
    let mut broken = TABLE_T;
    broken[9] = 0x3000_0000;
    let broken = TOOL.file("broken.bin", to_bytes(&broken));
    let (status, _, said) = TOOL.ran(&["compare", &broken, &plan, "--image"]);
    assert_eq!(status, 2);
    assert!(said.contains("broken.bin is refused with 4"), "{said}");
    let (status, _, said) = TOOL.ran(&["compare", &plan]);
    assert_eq!(status, 2);
    assert!(
        said.contains("two files are needed, CARD and PLAN; 1 given"),
        "{said}"
    );
    let other = TOOL.file(
        "other.txt",
        LINE.replace("domain chute", "domain slide")
            .replace("rights chute", "rights slide"),
    );
    let (status, _, said) = TOOL.ran(&["compare", &other, &plan]);
    assert_eq!(status, 0);
    assert!(
        said.contains("domain 2 is slide in CARD and chute in PLAN"),
        "{said}"
    );
}

#[test]
fn a_run_leaves_its_answers_and_its_table() {
    let input = TOOL.file("input.bin", worked_example());
    let (answers, left) = (TOOL.path("answers.txt"), TOOL.path("left.txt"));
    let (status, printed, _) = TOOL.ran(&["run", &input, "--answers", &answers, "--left", &left]);
    assert_eq!(status, 0);
    assert!(
        printed.contains("-> refused with 17: domain 0 has no SEND on domain 2"),
        "{printed}"
    );
    assert_eq!(fs::read_to_string(&answers).unwrap(), PRINTED);
    let table = fs::read_to_string(&left).unwrap();
    let tables = tables_before(&TABLE_T, &cut(&LIST_L));
    let wanted = TOOL.file("wanted.bin", to_bytes(tables.last().unwrap()));
    let (status, differs, _) = TOOL.ran(&["compare", &wanted, &left, "--image"]);
    assert_eq!(status, 0, "{differs} {table}");
    let read_back = ["commission", &input, "--answers", &answers, "--left", &left];
    let (status, judged, said) = TOOL.ran(&read_back);
    assert_eq!(status, 0, "{judged} {said}");
    assert!(judged.contains("check 2"), "{judged}");
    let wrong = fs::read_to_string(&answers)
        .unwrap()
        .replace("data 6 1", "data 5 1");
    fs::write(&answers, wrong).unwrap();
    assert_eq!(TOOL.ran(&read_back).0, 1, "another message was received");
}

#[test]
fn names_stay_in_the_table_that_a_run_leaves() {
    let (line, left) = (TOOL.file("line.txt", LINE), TOOL.path("left.txt"));
    assert_eq!(TOOL.ran(&["run", &line, "--left", &left]).0, 0);
    let (status, printed, _) = TOOL.ran(&["show", &left]);
    assert_eq!(status, 0);
    assert!(
        printed.contains("endpoint 0 (routes, name 1) [- - - 65]"),
        "{printed}"
    );
    let (status, _, said) = TOOL.ran(&["run", &line, "--left", &left, "--answers", &left]);
    assert_eq!(status, 2);
    assert!(
        said.contains("--answers and --left need a file each"),
        "{said}"
    );
    let (status, _, said) = TOOL.ran(&["run", &line, "--left", &line]);
    assert_eq!(status, 2);
    assert!(
        said.contains("is the input, which it would overwrite"),
        "{said}"
    );
    let refused = TOOL.file("refused.txt", "table 10000100 30000000");
    assert_eq!(TOOL.ran(&["run", &refused]).0, 1);
}

#[test]
fn options_are_given_once_and_names_stay_in_their_line() {
    let line = TOOL.file("line.txt", LINE);
    let (status, _, said) = TOOL.ran(&["show", &line, "--run", "--run"]);
    assert_eq!(status, 2);
    assert_eq!(said, "balkwizu show: --run is given twice\n");
    let (status, _, said) = TOOL.ran(&["show", "no\nsuch\u{1B}file"]);
    assert_eq!(status, 2);
    assert!(
        said.starts_with("balkwizu show: cannot read no\\nsuch\\u{1b}file: "),
        "{said}"
    );
    assert_eq!(said.lines().count(), 1, "{said}");
}

#[test]
fn a_text_in_utf_16_is_said_to_be_one() {
    let bytes: Vec<u8> = "\u{FEFF}domain link\r\ncalls\r\n"
        .encode_utf16()
        .flat_map(|word| word.to_le_bytes())
        .collect();
    let saved = TOOL.file("saved.txt", bytes);
    for command in ["show", "write", "commission", "run"] {
        let (status, _, said) = TOOL.ran(&[command, &saved]);
        assert_eq!(status, 2);
        assert!(
            said.contains("it is saved as UTF-16: save it as UTF-8"),
            "{said}"
        );
    }
}

#[test]
fn the_page_is_one_file_that_fetches_nothing() {
    let (line, page) = (TOOL.file("line.txt", LINE), TOOL.path("line.html"));
    let (status, printed, _) = TOOL.ran(&["show", &line, "--page", &page]);
    assert_eq!(status, 0);
    assert!(
        printed.ends_with(&format!("page written to {page}\n")),
        "{printed}"
    );
    let written = fs::read_to_string(&page).unwrap();
    assert!(written.starts_with("<!DOCTYPE html>") && written.ends_with("</html>\n"));
    for fetched in ["http:", "https:", "src=", "href=", "@import", "url("] {
        assert!(!written.contains(fetched), "{fetched}");
    }
    let (status, _, said) = TOOL.ran(&["show", &line, "--page", &page, "--svg", &page]);
    assert_eq!(status, 2);
    assert!(said.contains("--svg and --page need a file each"), "{said}");
    let long = TOOL.file(
        "long.bin",
        to_bytes(&[&[34], &TABLE_T[..], &[0x5000_0000; 600]].concat()),
    );
    assert_eq!(TOOL.ran(&["show", &long, "--page", &page]).0, 0);
    let written = fs::read_to_string(&page).unwrap();
    assert!(written.contains("\"more\": 100,"), "{written}");
}

/// What a browser makes of a page at a fragment.
fn opened(page: &str, fragment: &str) -> String {
    let browser = std::env::var("BROWSER").expect("the environment names a browser");
    let output = Command::new(browser)
        .args(["--headless", "--no-sandbox", "--disable-gpu", "--dump-dom"])
        .arg(format!("file://{page}#{fragment}"))
        .output()
        .expect("the browser starts");
    String::from_utf8(output.stdout).expect("text")
}

/// The text of the element with an id.
fn element<'a>(dom: &'a str, id: &str) -> &'a str {
    let start = dom.find(&format!(" id=\"{id}\"")).expect("it is there");
    let (_, from) = dom[start..].split_once('>').expect("its tag ends");
    from.split('<').next().expect("a text")
}

/// Compares what a browser shows after some calls with the reference's table.
fn compare_state(dom: &str, table: &[u32]) {
    let letters = |set: u32| -> String {
        let all = "SGRV".chars().enumerate();
        all.filter(|(bit, _)| set >> bit & 1 != 0)
            .map(|(_, letter)| letter)
            .collect()
    };
    let n = domains(table);
    for (h, t) in (0..n * n).map(|at| (at / n, at % n)) {
        assert_eq!(
            element(dom, &format!("r{h}-{t}")),
            letters(rights(table, h, t))
        );
    }
    for e in 0..endpoints(table) {
        let slots = endpoint_words(table, e)[SLOTS_PLACE..].iter();
        let waits: Vec<String> = slots
            .take(waiting(table, e))
            .map(|&slot| content(slot).to_string())
            .collect();
        assert_eq!(element(dom, &format!("q{e}")), waits.join(" "));
        assert_eq!(element(dom, &format!("l{e}")), lost(table, e).to_string());
    }
    for (d, &word) in reference::holders(table).iter().enumerate() {
        assert_eq!(element(dom, &format!("h{d}")), members(word, n));
    }
}

/// The numbers of the domains whose bits are set, as the page writes them.
fn members(word: u32, n: usize) -> String {
    let set = (0..n).filter(|d| word >> d & 1 != 0);
    let set: Vec<String> = set.map(|d| d.to_string()).collect();
    match set.is_empty() {
        true => "nobody".to_string(),
        false => set.join(", "),
    }
}

#[test]
#[ignore = "needs a browser, which BROWSER names: .ci/steps/report-page runs it"]
fn keys_step_through_the_list_in_a_browser() {
    let (input, page) = (
        TOOL.file("example.bin", worked_example()),
        TOOL.path("example.html"),
    );
    assert_eq!(TOOL.ran(&["show", &input, "--page", &page]).0, 0);
    let written = fs::read_to_string(&page).unwrap();
    let tables = tables_before(&TABLE_T, &cut(&LIST_L));
    let tried = [
        ("End ArrowLeft", 8, "8 of 9 calls"),
        (
            "End ArrowRight Home ArrowLeft ArrowRight",
            1,
            "1 of 9 calls",
        ),
    ];
    for (keys, step, done) in tried {
        let press = |key| {
            format!("document.dispatchEvent(new KeyboardEvent('keydown', {{ key: '{key}' }}));\n")
        };
        let presses: String = keys.split(' ').map(press).collect();
        let script = format!("<script>\n{presses}</script>\n</body>");
        let pressed = TOOL.file("pressed.html", written.replace("</body>", &script));
        let dom = opened(&pressed, "step=4");
        assert_eq!(element(&dom, "done"), done);
        compare_state(&dom, &tables[step]);
    }
}

#[test]
#[ignore = "needs a browser, which BROWSER names: .ci/steps/report-page runs it"]
fn a_browser_shows_the_states_of_the_reference() {
    let (input, page) = (
        TOOL.file("example.bin", worked_example()),
        TOOL.path("example.html"),
    );
    assert_eq!(TOOL.ran(&["show", &input, "--page", &page]).0, 0);
    let calls = cut(&LIST_L);
    let tables = tables_before(&TABLE_T, &calls);
    for step in [0, 2, 4, 9] {
        let domain = step % 3;
        let dom = opened(&page, &format!("step={step}&domain={domain}"));
        compare_state(&dom, &tables[step]);
        let sets = reference::sources(&TABLE_T, &calls, domain);
        let members_of = sets[step].iter();
        let word = members_of.fold(0, |word, &member| word | 1 << member);
        assert_eq!(element(&dom, "set"), members(word, 3));
        let kept = reference::purge(&TABLE_T, &calls, domain);
        for (number, kept) in kept.into_iter().enumerate() {
            let tag = dom.split(&format!("id=\"c{number}\"")).nth(1).unwrap();
            let tag = tag.split('>').next().unwrap();
            assert_eq!(tag.contains("kept"), kept, "call {number}: {tag}");
            assert_eq!(
                tag.contains("refused"),
                [0, 5, 6].contains(&number),
                "{tag}"
            );
            assert_eq!(tag.contains("now"), number + 1 == step, "{tag}");
        }
    }
    let dom = opened(&page, "step=1");
    assert_eq!(element(&dom, "at"), "After call 0");
    let why = "refused with 17: domain 0 has no SEND on domain 2, the owner of endpoint 1";
    assert!(element(&dom, "answer").starts_with(why));
}
