//! The repair as a field engineer uses it: what it would do, what it did, and its undoing.

use std::fs;

use line::trial::Trial;
use reference::example::TABLE_T;
use reference::words::to_bytes;

const TOOL: Trial = Trial {
    program: env!("CARGO_BIN_EXE_balkwizu"),
    folder: env!("CARGO_TARGET_TMPDIR"),
};

/// A card of the worked example with these words.
fn card(name: &str, damage: &[(usize, u32)]) -> String {
    let mut table = TABLE_T;
    for &(place, word) in damage {
        table[place] = word;
    }
    TOOL.file(name, to_bytes(&table))
}

#[test]
fn without_out_a_repair_is_reported_and_nothing_is_written() {
    let card = card("tried.image", &[(3, 0x2000_0010)]);
    let before = fs::read(&card).unwrap();
    let (status, printed, _) = TOOL.ran(&["repair", &card, "--image"]);
    assert_eq!(status, 0);
    assert!(
        printed.starts_with("1 word would be altered\n  word 3, "),
        "{printed}"
    );
    let rights = "calls of domain 1 can give back SEND+GRANT+REMOVE; nobody can give back REVOKE, \
                  only another table can\nnothing is written: OUT is not given\n";
    assert!(printed.ends_with(rights), "{printed}");
    assert_eq!(fs::read(&card).unwrap(), before);
    for option in [&["--changes", "x"][..], &["--text"]] {
        let line = [&["repair", card.as_str()][..], option].concat();
        let (status, _, said) = TOOL.ran(&line);
        assert_eq!(status, 2, "{said}");
        assert!(said.contains("is not for a report without OUT"), "{said}");
    }
}

#[test]
fn a_repair_is_undone_only_over_the_words_that_it_wrote() {
    let card = card("worn.image", &[(3, 0x2000_0010), (24, 0x5000_0009)]);
    let (sound, list, back) = (
        TOOL.path("sound.image"),
        TOOL.path("worn.list"),
        TOOL.path("back.image"),
    );
    let line = ["repair", &card, &sound, "--image", "--changes", &list];
    assert_eq!(TOOL.ran(&line).0, 0);
    let undo = |sound: &str| TOOL.ran(&["repair", sound, &back, "--image", "--undo", &list]);
    let (status, printed, _) = undo(&sound);
    assert_eq!((status, printed.as_str()), (0, "2 old words put back\n"));
    assert_eq!(fs::read(&back).unwrap(), fs::read(&card).unwrap());
    let (status, printed, _) = TOOL.ran(&["repair", &sound, "--image", "--undo", &list]);
    assert_eq!(status, 0);
    let tried = "2 old words can be put back\nnothing is written: OUT is not given\n";
    assert_eq!(printed, tried);
    // Since the repair somebody was granted the right, and something was sent.
    fs::remove_file(&back).unwrap();
    for (place, word) in [(3, 0x2000_0001_u32), (24, 0x5000_0001)] {
        let mut used = fs::read(&sound).unwrap();
        used[4 * place..4 * place + 4].copy_from_slice(&word.to_le_bytes());
        let used = TOOL.file("used.image", used);
        let (status, printed, _) = undo(&used);
        assert_eq!(status, 1, "{printed}");
        let why = format!("is {word:08X}, and the repair wrote ");
        assert!(printed.contains(&why), "{printed}");
        assert!(fs::metadata(&back).is_err(), "nothing is written");
    }
}

#[test]
fn no_repair_is_suggested_where_it_is_refused() {
    let words = |name: &str, damage: &[(usize, &str)]| {
        let mut words: Vec<String> = TABLE_T.iter().map(|word| format!("{word:08X}")).collect();
        for &(place, word) in damage {
            words[place] = word.to_string();
        }
        TOOL.file(name, format!("table {}\n", words.join(" ")))
    };
    let hint = |file: &str| format!("`balkwizu repair {file} OUT` makes it fit again");
    let worn = words("worn.txt", &[(3, "20000010")]);
    let lost = words("lost.txt", &[(3, "20000010"), (10, "30000000")]);
    for command in ["show", "run", "influence", "commission"] {
        let (status, printed, _) = TOOL.ran(&[command, &worn]);
        assert_eq!(status, 1);
        assert!(printed.contains(&hint(&worn)), "{printed}");
        let (status, printed, _) = TOOL.ran(&[command, &lost]);
        assert_eq!(status, 1);
        assert!(!printed.contains("balkwizu repair"), "{printed}");
    }
    assert_eq!(TOOL.ran(&["repair", &worn]).0, 0);
    let (status, printed, _) = TOOL.ran(&["repair", &lost]);
    assert_eq!(status, 1);
    assert!(printed.starts_with("refused with 33 ("), "{printed}");
    let (status, _, said) = TOOL.ran(&["compare", &worn, &lost]);
    assert_eq!(status, 2);
    assert!(said.contains(&hint(&worn)), "{said}");
    let (_, _, said) = TOOL.ran(&["compare", &lost, &worn]);
    assert!(!said.contains("balkwizu repair"), "{said}");
}
