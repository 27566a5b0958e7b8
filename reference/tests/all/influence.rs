//! Rows for influences, sources, purge and view, written out. A theorem or a
//! property test can stay true of a set that is too large; these rows say
//! exactly who joins and when.

use crate::support::{place, rights_table, run_from, table_with};
use reference::example::{LIST_L, TABLE_T};
use reference::generate::call_word;
use reference::{cut, influences, purge, sources, view, QueueView};

/// The members of the set at each call and past the last.
fn sets(table: &[u32], list: &[u32], d: usize) -> Vec<Vec<usize>> {
    sources(table, &cut(list), d)
        .into_iter()
        .map(|set| set.into_iter().collect())
        .collect()
}

/// Domain `by` asks for its rights: a call that is never refused.
fn asks(by: usize) -> u32 {
    call_word(5, by, 0, 0, 0)
}

#[test]
fn influence_is_oneself_or_any_right() {
    let expected = [
        [true, true, false],
        [true, true, true],
        [false, false, true],
    ];
    for (u, row) in expected.iter().enumerate() {
        for (v, &influence) in row.iter().enumerate() {
            assert_eq!(influences(&TABLE_T, u, v), influence);
        }
    }
    for set in 0..16 {
        let table = table_with(&[(place::rights(2, 0), 0x2000_0000 | set)]);
        assert_eq!(influences(&table, 2, 0), set != 0);
    }
}

#[test]
fn sources_of_list_l() {
    let zero_and_one = vec![0, 1];
    let mut expected = vec![zero_and_one.clone(); 2];
    expected.extend(vec![vec![0]; 8]);
    assert_eq!(sets(&TABLE_T, &LIST_L, 0), expected);

    let mut expected = vec![zero_and_one; 8];
    expected.extend(vec![vec![1]; 2]);
    assert_eq!(sets(&TABLE_T, &LIST_L, 1), expected);

    let mut expected = vec![vec![0, 1, 2]; 2];
    expected.extend(vec![vec![0, 2]; 6]);
    expected.extend(vec![vec![2]; 2]);
    assert_eq!(sets(&TABLE_T, &LIST_L, 2), expected);
}

#[test]
fn purge_of_list_l() {
    let struck = |d| -> Vec<usize> {
        let kept = purge(&TABLE_T, &cut(&LIST_L), d);
        (0..kept.len()).filter(|&i| !kept[i]).collect()
    };
    assert_eq!(struck(0), [4, 5, 6, 8]);
    assert_eq!(struck(1), [4, 5, 6, 8]);
    assert_eq!(struck(2), [6]);
}

#[test]
fn past_the_last_call_the_set_is_the_domain_alone() {
    assert_eq!(sets(&TABLE_T, &[], 2), [vec![2]]);
    assert_eq!(purge(&TABLE_T, &[], 2), []);
}

#[test]
fn a_chain_of_rights_joins_from_the_end() {
    // 3 has a right on 2, 2 on 1, 1 on 0.
    let table = rights_table(4, &[(3, 2, 1), (2, 1, 2), (1, 0, 4)]);
    let list = [asks(3), asks(2), asks(1)];
    let expected = [vec![0, 1, 2, 3], vec![0, 1, 2], vec![0, 1], vec![0]];
    assert_eq!(sets(&table, &list, 0), expected);
    assert_eq!(purge(&table, &cut(&list), 0), [true; 3]);
    // In the other order only the last one has a right on a member.
    let list = [asks(1), asks(2), asks(3)];
    let expected = [vec![0, 1], vec![0], vec![0], vec![0]];
    assert_eq!(sets(&table, &list, 0), expected);
    assert_eq!(purge(&table, &cut(&list), 0), [true, false, false]);
    // Nobody joins by what a member has on it.
    let list = [asks(0), asks(1), asks(2), asks(3)];
    assert_eq!(sets(&table, &list, 3), vec![vec![3]; 5]);
}

#[test]
fn the_table_is_the_one_just_before_the_call() {
    // 1 gives up its only right on 0: it has it just before that call.
    let table = rights_table(2, &[(1, 0, 4)]);
    let list = [asks(1), call_word(7, 1, 0, 0, 4), asks(1)];
    let expected = [vec![0, 1], vec![0, 1], vec![0], vec![0]];
    assert_eq!(sets(&table, &list, 0), expected);
    assert_eq!(purge(&table, &cut(&list), 0), [true, true, false]);

    // 2 is given a right on 0 by 1: it has none before that.
    let table = rights_table(3, &[(1, 0, 3), (1, 2, 1)]);
    let list = [asks(2), call_word(6, 1, 0, 2, 1), asks(2)];
    let expected = [vec![0, 1, 2], vec![0, 1, 2], vec![0, 2], vec![0]];
    assert_eq!(sets(&table, &list, 0), expected);
    let list = [asks(2), call_word(6, 1, 0, 2, 1)];
    let expected = [vec![0, 1], vec![0, 1], vec![0]];
    assert_eq!(sets(&table, &list, 0), expected);

    // 1 takes the right on 0 back from 2, which has it just before that call.
    let table = rights_table(3, &[(1, 0, 8), (1, 2, 1), (2, 0, 1)]);
    let list = [asks(2), call_word(8, 1, 0, 2, 1), asks(2)];
    let expected = [vec![0, 1, 2], vec![0, 1], vec![0], vec![0]];
    assert_eq!(sets(&table, &list, 0), expected);
    assert_eq!(purge(&table, &cut(&list), 0), [true, true, false]);
}

#[test]
fn a_refused_call_counts_like_any_other() {
    let table = rights_table(2, &[(1, 0, 1)]);
    let refused = [
        call_word(0, 1, 0, 0, 0),
        call_word(14, 1, 63, 255, 255),
        call_word(5, 1, 0, 0, 1),
        call_word(2, 1, 0, 0, 0),
        call_word(3, 1, 0, 0, 0),
        call_word(6, 1, 0, 0, 7),
        call_word(8, 1, 0, 0, 1),
    ];
    for first in refused {
        assert_eq!(sets(&table, &[first], 0), [vec![0, 1], vec![0]]);
        assert_eq!(purge(&table, &cut(&[first]), 0), [true]);
        assert_eq!(purge(&table, &cut(&[first]), 1), [true]);
    }
}

#[test]
fn strays_and_unknown_callers_are_struck_and_never_join() {
    let table = rights_table(2, &[(0, 1, 15), (1, 0, 15), (0, 0, 15), (1, 1, 15)]);
    for caller in 0..64 {
        let stray = call_word(15, caller, 0, 0, 0);
        for d in 0..2 {
            assert_eq!(sets(&table, &[stray], d), [[d], [d]]);
            assert_eq!(purge(&table, &cut(&[stray]), d), [false]);
        }
    }
    for caller in 2..64 {
        for kind in 0..15 {
            let list = [call_word(kind, caller, 0, 0, 0)];
            for d in 0..2 {
                assert_eq!(sets(&table, &list, d), [[d], [d]]);
                assert_eq!(purge(&table, &cut(&list), d), [false]);
            }
        }
    }
}

#[test]
fn view_of_list_l() {
    let ran = run_from(&TABLE_T, &LIST_L);
    let seen = |d| view(&ran.table, &cut(&LIST_L), &ran.answers, d);

    let zero = seen(0);
    let sends = [
        [0x2000_0011, 0, 0],
        [0x2000_0000, 0, 0],
        [0x2000_0000, 0, 0],
    ];
    assert_eq!(zero.answers[..3], sends);
    assert_eq!(zero.answers[3..], [[0x5000_0000, 272, 0]]);
    assert_eq!(zero.rights, [0x2000_0000, 0x2000_0001, 0x2000_0001]);
    assert_eq!(zero.queues, []);

    let one = seen(1);
    assert_eq!(one.answers, [[0x6040_0000, 0, 0]]);
    assert_eq!(one.rights, [0x2000_0001, 0x2000_0000, 0x2000_0007]);
    assert_eq!(one.queues, [empty_queue(0, 0x6000_0000)]);

    let two = seen(2);
    let receives = [[0x3080_0000, 6, 1], [0x3080_0013, 0, 0]];
    assert_eq!(two.answers[..2], receives);
    assert_eq!(two.answers[2..], [[0x4080_0000, 2, 0]]);
    assert_eq!(two.rights, [0x2000_0000; 3]);
    assert_eq!(two.queues, [empty_queue(1, 0x6000_0001)]);
}

fn empty_queue(endpoint: usize, lost: u32) -> QueueView {
    QueueView {
        endpoint,
        waiting: 0x5000_0000,
        messages: [0xF000_0000; 8],
        lost,
    }
}

#[test]
fn view_has_the_queues_of_every_endpoint_owned() {
    let mut table = table_with(&[
        (place::INFO_1, 0x4000_0101),
        (place::WAITING_1, 0x5000_0001),
        (place::SLOTS_1, 0xF000_0063),
    ]);
    table[place::LOST_0] = 0x6000_0007;
    let queues = view(&table, &[], &[], 1).queues;
    let mut second = empty_queue(1, 0x6000_0000);
    second.waiting = 0x5000_0001;
    second.messages[0] = 0xF000_0063;
    assert_eq!(queues, [empty_queue(0, 0x6000_0007), second]);
    assert_eq!(view(&table, &[], &[], 2).queues, []);
}

#[test]
fn view_has_the_answers_of_unknown_kinds_and_no_strays() {
    let list = [0x0000_0000, 0xF000_0000, 0xE000_0000, 0x5000_0000];
    let ran = run_from(&TABLE_T, &list);
    let seen = view(&ran.table, &cut(&list), &ran.answers, 0).answers;
    let expected = [
        [0x0000_000B, 0, 0],
        [0xE000_000B, 0, 0],
        [0x5000_0000, 0x10, 0],
    ];
    assert_eq!(seen, expected);
}
