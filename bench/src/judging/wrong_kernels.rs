//! Tests of the checklist by the wrong kernels of bench/c/wrong: what the drills and words
//! that were read back show of them.

use line::cases::Case;
use line::judging::checklist::read_back::ReadBack;
use line::judging::drills::{go_through, Wrong};
use line::judging::exercise::{exercise, Planned};
use line::kernels::boundary::Kernel;
use line::kernels::child;
use line::text::hex;
use line::text::input::Input;
use line::text::names::Names;
use reference::calls::cut;
use reference::entry::ANSWER_WORDS;
use reference::example::TABLE_T;

use crate::kernels::plain::{kernel, WRONG};

fn wrong(name: &str) -> Wrong {
    let drilled = go_through(&kernel(name).unwrap(), &TABLE_T);
    drilled.wrong.unwrap_or_else(|| panic!("{name} passes"))
}

#[test]
fn what_the_drills_find_is_a_refusal_where_it_is_one() {
    let order = wrong("wrong-order-20-before-13");
    assert!(order.refusal.unwrap().contains("code 20 data 0 0"));
    let far = wrong("wrong-size-far-behind");
    assert!(far.refusal.is_none() && far.word.contains("belongs to no call"));
}

#[test]
fn what_shows_only_after_other_runs_is_reported_as_such() {
    let kept = wrong("wrong-history-grants-of-two-bytes");
    let said = "Only after the runs before it in one process";
    assert!(kept.word.contains(said), "{}", kept.word);
}

/// What a kernel leaves of a list, as it would be read back, where it comes to an end.
fn left_by(kernel: &Kernel, case: &Case) -> Option<ReadBack> {
    let ran = child::run(kernel, case, child::LIMIT).ok()?;
    let answers = ran.answers[..ANSWER_WORDS * cut(&case.list).len()].to_vec();
    let input = Input {
        table: case.table.clone(),
        list: case.list.clone(),
    };
    let read = ReadBack::new(&input, &Names::none(), answers, ran.table);
    read.ok().filter(|_| ran.outcome.code == 0)
}

/// Faults that no words read back of an accepted table's run tell: of the entry and the
/// check, of words that aren't read back, and of the count that a run returns; and those
/// that the drills are for, which no list of the exercise need show.
fn is_unseen(name: &str) -> bool {
    let entry = [
        "code-1-", "code-2-", "code-3-", "code-4-", "code-5-", "code-6-",
    ];
    let unread = ["holders-", "faults", "loops", "one-call-too-many"];
    let drilled = [
        "order-", "bits-", "partial-", "size-", "history-", "beyond-", "drill-",
    ];
    let name = name.strip_prefix("wrong-").unwrap();
    let all = entry.iter().chain(&unread).chain(&drilled);
    all.into_iter().any(|start| name.starts_with(start))
}

#[test]
fn the_words_of_every_wrong_kernel_fail() {
    // On the worked example nobody can revoke.
    let four = hex::read(include_str!("../../../balkwizu/examples/four.txt")).unwrap();
    let four = Input::parse(&four.bytes).unwrap();
    let mut lists = exercise(&Input::example().table);
    lists.extend(exercise(&four.table));
    let seen = WRONG.iter().filter(|kernel| !is_unseen(kernel.name));
    for kernel in seen {
        let fails = |list: &Planned| {
            let read = left_by(kernel, &list.case);
            read.is_some_and(|read| read.verdicts().checks[1].judged.is_err())
        };
        assert!(lists.iter().any(fails), "{}", kernel.name);
    }
}
