//! What the program prints about a line on which the link counts for the drive, though no table
//! of the list has a chain of rights from the one to the other: every text, as it is.

use line::trial::Trial;
use std::fs;
use std::path::PathBuf;

const TOOL: Trial = Trial {
    program: env!("CARGO_BIN_EXE_balkwizu"),
    folder: env!("CARGO_TARGET_TMPDIR"),
};

/// The line, and the texts: after each `$ ` a command, in which LINE is the line's file, and
/// then all that it prints.
const LINE: &str = concat!(env!("CARGO_MANIFEST_DIR"), "/examples/no-chain.txt");
const TEXTS: &str = include_str!("no_chain.txt");

#[test]
fn every_text_about_it_is_printed_as_it_is_written_down() {
    let mut commands = 0;
    for part in TEXTS.split("$ ").skip(1) {
        let (line, text) = part.split_once('\n').expect("a command and its text");
        let line = line.replace("LINE", LINE);
        let words: Vec<&str> = line.split(' ').collect();
        assert_eq!(TOOL.printed(&words), text, "{line}");
        commands += 1;
    }
    assert_eq!(commands, 5);
}

#[test]
fn the_checklist_and_its_page_have_the_link_in_the_source_set_of_the_drive() {
    let page = PathBuf::from(env!("CARGO_TARGET_TMPDIR")).join("no-chain.html");
    let page = page.to_str().expect("a plain path");
    let checked = TOOL.printed(&["commission", LINE, "--report", page]);
    let page = fs::read_to_string(page).expect("the page is there");
    let sets = "source set of each domain over this list: domain 0 (link): 0 (link), domain 1 (yard): \
                0 (link) 1 (yard) 3 (zones), domain 2 (belt): 0 (link) 1 (yard) 2 (belt) 3 (zones), \
                domain 3 (zones): 3 (zones), domain 4 (drive): 0 (link) 1 (yard) 2 (belt) 3 (zones) \
                4 (drive)";
    let unshown =
        "by this list, isolation of domains 2 (belt) and 4 (drive): each call of another \
                   domain counts for it, so nothing is purged";
    for text in [sets, unshown] {
        assert!(checked.contains(text), "{checked}");
        assert!(page.contains(text), "{page}");
    }
    for text in [&checked, &page] {
        assert!(!text.contains("at the end of this list"), "{text}");
        assert!(!text.contains("reaches it"), "{text}");
    }
    let altered = "<li>domain 0 (link) on domain 1 (yard): SEND+REMOVE before, none after</li>";
    assert!(page.contains(altered), "{page}");
}
