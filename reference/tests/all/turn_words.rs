//! What is kept between turns as words: rows for where each word stands, for words that no
//! history makes, and drawn events against what is kept as a value.

use crate::support::{rights_table, UNTOUCHED};
use reference::example::TABLE_T;
use reference::generate::{call_word, damaged_table, events, table, Event, Rng};
use reference::holders;
use reference::table::domains;
use reference::turn_words::{begin, hand_in, kept, length, turn, DOMAIN_WORDS, WRONG_LENGTH};
use reference::turns::{Turn, Turns};

/// A domain asks for its rights.
fn ask(domain: usize) -> u32 {
    call_word(5, domain, 0, 0, 0)
}

/// One turn with enough space for all: the caller that it served.
fn served(table: &mut [u32], state: &mut [u32]) -> Option<u32> {
    let (mut panel, mut answer) = (vec![0; domains(table)], [UNTOUCHED; 3]);
    let told = turn(table, state, &mut panel, &mut answer);
    assert!(matches!(told, (0, 0 | 1)), "{told:?}");
    (told.1 == 1).then(|| answer[0] >> 22 & 63)
}

#[test]
fn where_the_words_stand() {
    assert_eq!((length(1), length(3), length(16)), (18, 52, 273));
    let mut table = TABLE_T.to_vec();
    let (mut state, mut panel) = (vec![UNTOUCHED; 52], [UNTOUCHED; 3]);
    assert_eq!(begin(&table, &mut state, &mut panel), 0);
    assert_eq!((&state, panel), (&vec![0; 52], [0b010, 0b001, 0b010]));
    assert_eq!(hand_in(&table, &mut state, 2, &[ask(2)]), 0);
    let send = [0x2040_0100, 0xF000_0005];
    assert_eq!(hand_in(&table, &mut state, 1, &send), 0);
    assert_eq!(hand_in(&table, &mut state, 1, &[ask(1)]), 0);
    let mut wanted = vec![0; 52];
    wanted[18..22].copy_from_slice(&[3, 0x2040_0100, 0xF000_0005, ask(1)]);
    wanted[35..37].copy_from_slice(&[1, ask(2)]);
    assert_eq!(state, wanted);
    // The two words go, the one behind them moves to the front, and nothing is cleared.
    assert_eq!(served(&mut table, &mut state), Some(1));
    wanted[0] = 2;
    wanted[18..22].copy_from_slice(&[1, ask(1), 0xF000_0005, ask(1)]);
    assert_eq!(state, wanted);
    assert_eq!(served(&mut table, &mut state), Some(2));
    wanted[0] = 3;
    wanted[35] = 0;
    assert_eq!(state, wanted);
    assert_eq!(served(&mut table, &mut state), Some(1));
    assert_eq!(served(&mut table, &mut state), None);
    assert_eq!((state[0], state[18], state[35]), (2, 0, 0));
}

#[test]
fn an_old_second_word_is_not_taken_up() {
    let mut table = TABLE_T.to_vec();
    let mut state = vec![0; 52];
    state[18..21].copy_from_slice(&[1, 0x2040_0100, 0xF000_0005]);
    let (mut panel, mut answer) = ([0; 3], [0; 3]);
    let told = turn(&mut table, &mut state, &mut panel, &mut answer);
    assert_eq!((told, answer), ((0, 1), [0x2040_000E, 0, 0]));
    assert_eq!(table, TABLE_T);
}

#[test]
fn counts_and_places_that_no_history_makes() {
    let mut table = rights_table(3, &[]);
    for count in [16, 17, u32::MAX] {
        let mut state = vec![0; 52];
        state[18] = count;
        state[19..35].fill(ask(1));
        let left = state.clone();
        assert_eq!(hand_in(&table, &mut state, 1, &[ask(1)]), 37);
        assert_eq!(hand_in(&table, &mut state, 0, &[ask(0)]), 0);
        assert_eq!(state[18..], left[18..]);
        assert_eq!(served(&mut table, &mut state), Some(0));
        assert_eq!(state[18], count);
        assert_eq!(served(&mut table, &mut state), Some(1));
        assert_eq!(state[18], 15);
    }
    for (place, first) in [(0, 0), (1, 1), (2, 2), (3, 0), (4, 0), (u32::MAX, 0)] {
        let mut state = vec![0; 52];
        for domain in 0..3 {
            assert_eq!(
                hand_in(&table, &mut state, domain, &[ask(domain as usize)]),
                0
            );
        }
        state[0] = place;
        assert_eq!(served(&mut table, &mut state), Some(first));
        assert_eq!(state[0], first + 1);
    }
}

/// The place stays what it is where nothing is served, also one that no history makes.
#[test]
fn what_is_refused_or_idle_changes_nothing() {
    let mut table = TABLE_T.to_vec();
    for place in [0, 1, 3, 77] {
        let mut state = vec![0; 52];
        state[0] = place;
        let left = state.clone();
        for (lent, space) in [(0, 3), (2, 3), (3, 3), (4, 3), (3, 2), (3, 0), (2, 0)] {
            let (mut panel, mut answer) = (vec![UNTOUCHED; lent], vec![UNTOUCHED; space]);
            let told = turn(&mut table, &mut state, &mut panel, &mut answer);
            assert_eq!(told, (if lent == 3 { 0 } else { 6 }, 0));
            assert!(panel.iter().chain(&answer).all(|&word| word == UNTOUCHED));
        }
        assert!(state == left && table == TABLE_T);
    }
}

/// A call that is served needs three words for its answer; an idle turn needs none.
#[test]
fn code_6_under_three_words_for_the_answer() {
    for pending in [false, true] {
        let mut table = TABLE_T.to_vec();
        let mut state = vec![0; 52];
        if pending {
            assert_eq!(hand_in(&table, &mut state, 1, &[ask(1)]), 0);
        }
        let left = state.clone();
        for space in 0..3 {
            let (mut panel, mut answer) = ([UNTOUCHED; 3], vec![UNTOUCHED; space]);
            let told = turn(&mut table, &mut state, &mut panel, &mut answer);
            assert_eq!(told, (if pending { 6 } else { 0 }, 0));
            assert!(state == left && panel == [UNTOUCHED; 3] && table == TABLE_T);
            assert_eq!(answer, vec![UNTOUCHED; space]);
        }
        let (mut panel, mut answer) = ([UNTOUCHED; 3], vec![UNTOUCHED; 5]);
        let told = turn(&mut table, &mut state, &mut panel, &mut answer);
        assert_eq!(told, (0, u32::from(pending)));
        assert_eq!(answer[3..], [UNTOUCHED; 2]);
    }
}

/// The beginning is refused with 2 to 5, then 6 for the panel's words, then 99, and changes
/// nothing then.
#[test]
fn a_beginning_that_is_refused() {
    let mut damaged = TABLE_T.to_vec();
    damaged[1] = 0;
    for (table, words, lent, code) in [
        (&damaged[..], 0, 0, 4),
        (&TABLE_T[..], 0, 2, 6),
        (&TABLE_T[..], 52, 4, 6),
        (&TABLE_T[..], 51, 3, WRONG_LENGTH),
        (&TABLE_T[..], 4 * 52, 3, WRONG_LENGTH),
    ] {
        let (mut state, mut panel) = (vec![UNTOUCHED; words], vec![UNTOUCHED; lent]);
        assert_eq!(begin(table, &mut state, &mut panel), code);
        assert!(state.iter().chain(&panel).all(|&word| word == UNTOUCHED));
    }
}

/// 99 comes behind 2 to 5 and 6 for the panel's words, behind 35 and 36, and before 37 and
/// 6 for an answer.
#[test]
fn a_wrong_length() {
    for words in [0, 1, 18, 35, 51, 53, 69, 273] {
        // Full words, as far as there are any: 37 with the right length.
        let mut state = vec![16; words];
        let mut table = TABLE_T.to_vec();
        assert_eq!(hand_in(&table, &mut state, 3, &[ask(3)]), 35);
        assert_eq!(hand_in(&table, &mut state, 2, &[ask(1)]), 36);
        assert_eq!(hand_in(&table, &mut state, 2, &[ask(2)]), WRONG_LENGTH);
        let (mut panel, mut answer) = ([UNTOUCHED; 3], [UNTOUCHED; 3]);
        for (lent, space, code) in [
            (2, 3, 6),
            (2, 2, 6),
            (3, 2, WRONG_LENGTH),
            (3, 3, WRONG_LENGTH),
        ] {
            let told = turn(
                &mut table,
                &mut state,
                &mut panel[..lent],
                &mut answer[..space],
            );
            assert_eq!(told, (code, 0));
        }
        assert!(table == TABLE_T && state == vec![16; words]);
        assert!(panel == [UNTOUCHED; 3] && answer == [UNTOUCHED; 3]);
    }
}

#[test]
fn damaged_tables_refuse_first() {
    for seed in 0..400 {
        let rng = &mut Rng::new(seed);
        let (damaged, code) = damaged_table(rng, 5, 5);
        let mut table = damaged.clone();
        let words = rng.pick(&[0, 18, 35, 52, 69, 86, 18 + DOMAIN_WORDS * 254]);
        let mut state = vec![1; words];
        assert_eq!(hand_in(&table, &mut state, 0, &[ask(0)]), code);
        let (mut panel, mut answer) = (vec![UNTOUCHED; 3], vec![UNTOUCHED; rng.below(5)]);
        let told = turn(&mut table, &mut state, &mut panel, &mut answer);
        assert_eq!(told, (code, 0));
        assert!(table == damaged && state == vec![1; words]);
        assert!(panel.iter().chain(&answer).all(|&word| word == UNTOUCHED));
    }
}

/// Drawn events on words that held others before: what they say is kept is what is kept as
/// a value, after each, and every answer is the same.
#[test]
fn drawn_events() {
    for seed in 0..200 {
        let rng = &mut Rng::new(seed);
        let start = table(rng, 6, 5);
        let (mut now, mut other) = (start.clone(), start.clone());
        let mut turns = Turns::begin();
        let mut state: Vec<u32> = (0..length(domains(&start))).map(|_| rng.word()).collect();
        let mut first = vec![UNTOUCHED; domains(&start)];
        assert_eq!(begin(&start, &mut state, &mut first), 0);
        assert_eq!(first, holders(&start));
        for event in events(rng, &start, 120) {
            match event {
                Event::HandIn { domain, words } => assert_eq!(
                    hand_in(&now, &mut state, domain, &words),
                    turns.hand_in(&now, domain, &words)
                ),
                Event::Turn { panel } => {
                    let (mut left, mut right) = (panel.clone(), panel);
                    let mut answer = [UNTOUCHED; 3];
                    let told = turn(&mut now, &mut state, &mut left, &mut answer);
                    match turns.turn(&mut other, &mut right) {
                        Err(code) => assert_eq!(told, (code, 0)),
                        Ok(Turn::Idle) => assert_eq!(told, (0, 0)),
                        Ok(Turn::Served { answer: words, .. }) => {
                            assert_eq!((told, answer), ((0, 1), words));
                        }
                    }
                    assert!(left == right && now == other);
                }
            }
            assert_eq!(kept(&now, &state).as_ref(), Some(&turns));
        }
    }
}
