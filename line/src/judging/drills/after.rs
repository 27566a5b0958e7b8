//! Runs that follow each other with nothing in between: after each refusal of the entry and
//! after a list of each kind of call, a list of each kind of call on the same table and on
//! another, so that what a kernel keeps of the run before it shows; and a run after an image
//! that is refused.

use reference::calls::{LIST_WORDS_MAX, MY_RIGHTS, STRAY};
use reference::generate::call_word;
use reference::table::right;

use super::entries::{single_damages, with_damage};
use super::images::Image;
use super::tables::{spread, Shape};
use super::{Given, Tables, Take};
use crate::cases::Case;
use crate::judging::exercise::planner::{grant, look_up, receive, send};
use crate::judging::variants::case_of;
use crate::text::input::Input;

/// So many calls a list has that has several.
const SEVERAL: usize = 5;

/// The drill: each ordered pair of tables, of which the second has a list of each kind run
/// after each refusal of the first and after each of its lists.
pub fn after(tables: &Tables, take: &mut Take) {
    let small = Shape::new(2, 2).with_rights(|_, _| right::ALL).words();
    let large = &tables.own[tables.own.len() - 1];
    for before in [&tables.line, &small, large] {
        let first: Vec<Case> = refused(before).into_iter().chain(runs(before)).collect();
        for then in [&tables.line, &small] {
            let second = runs(then);
            for (first, second) in first
                .iter()
                .flat_map(|f| second.iter().map(move |s| (f, s)))
            {
                take(Given::Next(first.clone()));
                take(Given::Next(second.clone()));
            }
            for damage in single_damages() {
                take(Given::Image(Image::of(&with_damage(before, damage))));
                take(Given::Next(second[0].clone()));
            }
        }
    }
}

/// A run that the entry refuses for each reason: each damage of the table alone, a list
/// that is too long, too little answer space, and too few and too many words for the holders.
fn refused(table: &[u32]) -> Vec<Case> {
    let run = |words: usize| {
        case_of(&Input {
            table: table.to_vec(),
            list: vec![call_word(MY_RIGHTS, 0, 0, 0, 0); words],
        })
    };
    let damaged = single_damages().map(|damage| Case {
        table: with_damage(table, damage),
        ..run(SEVERAL)
    });
    let too_long = run(LIST_WORDS_MAX + 1);
    let mut no_space = run(SEVERAL);
    no_space.answers.clear();
    let [mut fewer, mut more] = [run(SEVERAL), run(SEVERAL)];
    fewer.holders.pop();
    more.holders.push(0xC0DE_0099);
    damaged.chain([too_long, no_space, fewer, more]).collect()
}

/// A run of one call and of several of each kind: of a word alone, of two words, and of the
/// kinds that alter a table; a run of no call, and of as many as there can be.
fn runs(table: &[u32]) -> Vec<Case> {
    let alone = (0..=STRAY).map(|kind| vec![call_word(kind, 0, 0, 0, 0)]);
    let calls = [
        look_up(0, spread(0)),
        look_up(0, 1),
        send(0, 0, spread(1)),
        receive(0, 0),
        grant(0, 0, 1, right::SEND),
    ];
    let kinds: Vec<Vec<u32>> = alone.chain(calls.map(|call| call.words())).collect();
    let several = kinds.iter().map(|words| words.repeat(SEVERAL));
    let longest = vec![call_word(MY_RIGHTS, 0, 0, 0, 0); LIST_WORDS_MAX];
    let lists = kinds.iter().cloned().chain(several);
    let lists = lists.chain([Vec::new(), longest]);
    let run = |list| {
        let table = table.to_vec();
        case_of(&Input { table, list })
    };
    lists.map(run).collect()
}

#[cfg(test)]
mod tests {
    use super::*;
    use crate::judging::compare::separate_run;
    use reference::example::TABLE_T;

    #[test]
    fn each_refusal_of_the_entry_comes_first_and_then_a_run() {
        let code = |case: &Case| separate_run(case).unwrap().outcome.code;
        let mut met = [0; 7];
        for case in refused(&TABLE_T) {
            met[code(&case) as usize] += 1;
        }
        assert!(
            met[0] == 0 && met[1..].iter().all(|&count| count > 0),
            "{met:?}"
        );
        assert!(runs(&TABLE_T).iter().all(|case| code(case) == 0));
    }
}
