//! The picture as a planner looks at it: names, arrows and tooltips at every size.

use std::fs;

use line::trial::Trial;

const TOOL: Trial = Trial {
    program: env!("CARGO_BIN_EXE_balkwizu"),
    folder: env!("CARGO_TARGET_TMPDIR"),
};

/// A line of so many domains, each with SEND on the next so many.
fn line(n: usize, each: usize) -> String {
    let domains = (0..n).map(|domain| format!("domain drive-{domain:02}\n"));
    let rights = (0..n * each).map(|pair| {
        let (holder, target) = (pair / each, (pair / each + 1 + pair % each) % n);
        format!("rights drive-{holder:02} on drive-{target:02}: SEND\n")
    });
    domains.chain(rights).collect()
}

fn drawn(name: &str, text: &str, options: &[&str]) -> String {
    let file = TOOL.file(&format!("{name}.txt"), text);
    let out = TOOL.path(&format!("{name}.svg"));
    let show = [&["show", &file, "--svg", &out][..], options].concat();
    let (status, _, said) = TOOL.ran(&show);
    assert_eq!(status, 0, "{said}");
    fs::read_to_string(out).unwrap()
}

/// The bent paths of a picture: one for each arrow.
fn arrows(picture: &str) -> usize {
    let lines = picture.lines();
    lines
        .filter(|line| line.starts_with("<path") && line.contains(" C"))
        .count()
}

#[test]
fn every_arrow_has_a_tooltip_and_every_domain_its_name() {
    let picture = drawn("ten", &line(10, 4), &[]);
    assert_eq!(arrows(&picture), 40);
    for holder in 0..10 {
        let name = format!("drive-{holder:02}");
        let count = picture.matches(&format!(">{name}</text>")).count();
        assert_eq!(count, 3, "{name} is at its disc, its row and its column");
        let target = (holder + 1) % 10;
        let title = format!(
            "<g><title>domain {holder} ({name}) has SEND on domain {target} (drive-{target:02})\
             </title>\n<path"
        );
        assert_eq!(picture.matches(&title).count(), 1, "{title}");
    }
}

#[test]
fn more_than_forty_arrows_are_a_grid_or_those_of_one_domain() {
    let text = line(16, 8);
    let picture = drawn("sixteen", &text, &[]);
    assert_eq!(arrows(&picture), 0);
    assert!(
        picture.contains("128 arrows are too many to draw"),
        "{picture}"
    );
    assert_eq!(picture.matches(">drive-15</text>").count(), 2);
    let one = drawn("one", &text, &["--domain", "drive-15"]);
    assert_eq!(arrows(&one), 16);
    assert!(one.contains(">Rights of and on domain 15 (drive-15)</text>"));
    assert!(!one.contains("too many"));
}

#[test]
fn a_domain_is_chosen_for_a_picture_alone() {
    let file = TOOL.file("small.txt", line(3, 1));
    let (status, _, said) = TOOL.ran(&["show", &file, "--domain", "0"]);
    assert_eq!(status, 2);
    assert!(said.contains("--domain is for --svg"), "{said}");
    let out = TOOL.path("never.svg");
    let (status, _, said) = TOOL.ran(&["show", &file, "--svg", &out, "--domain", "belt"]);
    assert_eq!(status, 2);
    assert!(said.contains("no domain is called `belt`"), "{said}");
    assert!(fs::metadata(&out).is_err());
}
