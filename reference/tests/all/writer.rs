//! The writer (document 02, request (c)): what it writes, the edges of 30 and 31,
//! round trips both ways, and calls that are handed in as plain words.

use std::collections::BTreeSet;

use crate::support::{bare_table, code, UNTOUCHED};
use reference::example::LIST_L;
use reference::generate::{
    columns, list, table, value, value_too_large, values_of_words, writing, Rng, Writing,
};
use reference::words::hex;
use reference::writer::{from_columns, to_columns};
use reference::{cut, fits, read, write, write_columns, Call, Value};

const LOOK_UP: Value = Value::LookUp { caller: 1, name: 2 };
const MY_RIGHTS: Value = Value::MyRights { caller: 9 };
const SEND: Value = Value::Send {
    caller: 3,
    endpoint: 4,
    message: 5,
};
const RECEIVE: Value = Value::Receive {
    caller: 6,
    endpoint: 7,
};
const REVOKE: Value = Value::Revoke {
    caller: 17,
    target: 18,
    holder: 19,
    rights: 20,
};

/// A call of each kind, its five columns and its words, all fields different.
#[rustfmt::skip]
fn rows() -> [(Value, [u32; 5], Vec<u32>); 8] {
    [
        (LOOK_UP, [1, 1, 0, 0, 2], vec![0x1040_0000, 0xF000_0002]),
        (SEND, [2, 3, 0, 4, 5], vec![0x20C0_0400, 0xF000_0005]),
        (RECEIVE, [3, 6, 0, 7, 0], vec![0x3180_0700]),
        (Value::MyEndpoints { caller: 8 }, [4, 8, 0, 0, 0], vec![0x4200_0000]),
        (MY_RIGHTS, [5, 9, 0, 0, 0], vec![0x5240_0000]),
        (Value::Grant { caller: 10, target: 11, recipient: 12, rights: 13 },
            [6, 10, 11, 12, 13], vec![0x628B_0C0D]),
        (Value::Remove { caller: 14, target: 15, rights: 16 },
            [7, 14, 15, 0, 16], vec![0x738F_0010]),
        (REVOKE, [8, 17, 18, 19, 20], vec![0x8452_1314]),
    ]
}

/// The same with every field at its largest.
#[rustfmt::skip]
fn largest_rows() -> [(Value, Vec<u32>); 8] {
    [
        (Value::LookUp { caller: 63, name: 0x0FFF_FFFF }, vec![0x1FC0_0000, 0xFFFF_FFFF]),
        (Value::Send { caller: 63, endpoint: 255, message: 0x0FFF_FFFF },
            vec![0x2FC0_FF00, 0xFFFF_FFFF]),
        (Value::Receive { caller: 63, endpoint: 255 }, vec![0x3FC0_FF00]),
        (Value::MyEndpoints { caller: 63 }, vec![0x4FC0_0000]),
        (Value::MyRights { caller: 63 }, vec![0x5FC0_0000]),
        (Value::Grant { caller: 63, target: 63, recipient: 255, rights: 255 }, vec![0x6FFF_FFFF]),
        (Value::Remove { caller: 63, target: 63, rights: 255 }, vec![0x7FFF_00FF]),
        (Value::Revoke { caller: 63, target: 63, holder: 255, rights: 255 }, vec![0x8FFF_FFFF]),
    ]
}

/// The largest that each column after the kind may hold, for kinds 1 to 8.
const LARGEST: [[u32; 4]; 8] = [
    [63, 0, 0, 0x0FFF_FFFF],
    [63, 0, 255, 0x0FFF_FFFF],
    [63, 0, 255, 0],
    [63, 0, 0, 0],
    [63, 0, 0, 0],
    [63, 63, 255, 255],
    [63, 63, 0, 255],
    [63, 63, 255, 255],
];

/// The words of five columns, where they are a call that can be written.
fn expected_words(five: &[u32]) -> Option<Vec<u32>> {
    let &[kind @ 1..=8, caller, a, b, last] = five else {
        return None;
    };
    let largest = LARGEST[kind as usize - 1];
    if [caller, a, b, last]
        .iter()
        .zip(largest)
        .any(|(&c, l)| c > l)
    {
        return None;
    }
    let first = kind * 0x1000_0000 + caller * 0x40_0000 + a * 0x1_0000 + b * 0x100;
    Some(match kind {
        1 | 2 => vec![first, 0xF000_0000 + last],
        _ => vec![first + last],
    })
}

/// What the writer must answer for columns, and the space that it must leave.
fn expected(columns: &[u32], space: &[u32]) -> ((u32, usize), Vec<u32>) {
    let mut words = Vec::new();
    for (number, five) in columns.chunks(5).enumerate() {
        match expected_words(five) {
            Some(more) => words.extend(more),
            None => return ((30, number), space.to_vec()),
        }
    }
    if words.len() > 4096 || words.len() > space.len() {
        return ((31, 0), space.to_vec());
    }
    let count = words.len();
    words.extend(&space[count..]);
    ((0, count), words)
}

/// A writer's answer and the whole space after it.
fn written(calls: &[Value], space: usize) -> ((u32, usize), Vec<u32>) {
    let mut left = vec![UNTOUCHED; space];
    (write(calls, &mut left), left)
}

fn written_columns(columns: &[u32], space: usize) -> ((u32, usize), Vec<u32>) {
    let mut left = vec![UNTOUCHED; space];
    (write_columns(columns, &mut left), left)
}

/// Asserts that a list is written as some words, with space past them that stays.
fn is_written(calls: &[Value], words: &[u32]) {
    let (answer, left) = written(calls, words.len() + 3);
    assert_eq!(answer, (0, words.len()), "{calls:?}");
    assert_eq!(hex(&left[..words.len()]), hex(words), "{calls:?}");
    assert_eq!(left[words.len()..], [UNTOUCHED; 3], "{calls:?}");
}

/// Asserts that a list is refused and no word of the space is written.
fn is_refused(calls: &[Value], space: usize, answer: (u32, usize)) {
    let refused = (answer, vec![UNTOUCHED; space]);
    assert_eq!(written(calls, space), refused);
}

/// The five columns of each call, with the kind 0, which is none, for a refused one.
fn columns_of(calls: &[Value]) -> Vec<u32> {
    let five = |call| to_columns(call).unwrap_or([0; 5]);
    calls.iter().flat_map(five).collect()
}

#[test]
fn each_kind_is_written_and_read() {
    for (call, five, words) in rows() {
        assert!(fits(&call));
        is_written(&[call], &words);
        assert_eq!(read(&words), [call]);
        assert_eq!(to_columns(&call), Some(five));
        assert_eq!(from_columns(&five), Some(call));
        let answer = written_columns(&five, words.len());
        assert_eq!(answer, ((0, words.len()), words));
    }
    let calls = rows().map(|(call, ..)| call);
    let words = rows().map(|(_, _, words)| words).concat();
    is_written(&calls, &words);
    assert_eq!(read(&words), calls);
}

/// Only widths count: no table says which domains and endpoints there are, and no
/// number is too small or no set of rights.
#[test]
fn fields_from_0_to_their_largest_are_written() {
    for (call, words) in largest_rows() {
        is_written(&[call], &words);
        assert_eq!(read(&words), [call]);
    }
    for kind in 1..=8 {
        let none = from_columns(&[kind, 0, 0, 0, 0]).unwrap();
        let second: &[u32] = if kind < 3 { &[0xF000_0000] } else { &[] };
        is_written(&[none], &[&[kind << 28], second].concat());
    }
    for rights in 0..=255 {
        let call = from_columns(&[7, 1, 2, 0, rights]).unwrap();
        is_written(&[call], &[0x7042_0000 | rights]);
    }
}

#[test]
fn an_empty_list_is_no_word() {
    is_written(&[], &[]);
    assert_eq!(write(&[], &mut []), (0, 0));
    assert_eq!(write_columns(&[], &mut []), (0, 0));
    assert_eq!(read(&[]), []);
}

/// Every field of every kind, by 1 and by far.
#[test]
fn code_30_field_that_exceeds_its_bits() {
    for kind in 1..=8_u32 {
        for (field, largest) in LARGEST[kind as usize - 1].into_iter().enumerate() {
            for over in [largest + 1, 2 * (largest + 1), 0x8000_0000, u32::MAX] {
                let mut five = [kind, 0, 0, 0, 0];
                five[1 + field] = over;
                let no_call = from_columns(&five).is_none();
                assert_eq!(no_call, largest == 0, "{five:?}");
                assert_eq!(written_columns(&five, 2), ((30, 0), vec![UNTOUCHED; 2]));
                if let Some(call) = from_columns(&five) {
                    assert!(!fits(&call), "{call:?}");
                    is_refused(&[call], 2, (30, 0));
                }
            }
        }
    }
}

#[test]
fn code_30_refused_call() {
    for code in [10, 11, 13, 14] {
        let refused = Value::Refused(code);
        assert!(!fits(&refused));
        assert_eq!(to_columns(&refused), None);
        is_refused(&[refused], 4, (30, 0));
        is_refused(&[SEND, refused], 4, (30, 1));
    }
}

#[test]
fn code_30_number_of_the_first_such_call() {
    let over = Value::MyRights { caller: 64 };
    let stray = Value::Refused(10);
    is_refused(&[over, SEND, stray], 9, (30, 0));
    is_refused(&[SEND, LOOK_UP, over, stray], 9, (30, 2));
    is_refused(&[SEND, LOOK_UP, MY_RIGHTS, stray, over], 9, (30, 3));
    // Before 31, whichever way that comes, and past the 4,096th call too.
    is_refused(&[SEND, over], 0, (30, 1));
    is_refused(&[SEND, over], 1, (30, 1));
    for (count, number) in [(4096, 4096), (4097, 4097), (70_000, 70_000)] {
        let mut calls = vec![MY_RIGHTS; count];
        calls.push(over);
        is_refused(&calls, 5000, (30, number));
    }
}

#[test]
fn code_31_space_too_short() {
    for (call, _, words) in rows() {
        for space in 0..words.len() {
            is_refused(&[call], space, (31, 0));
        }
        is_written(&[call], &words);
        let all = [SEND, call];
        is_refused(&all, 1 + words.len(), (31, 0));
        assert_eq!(written(&all, 2 + words.len()).0, (0, 2 + words.len()));
    }
}

#[test]
fn code_31_more_words_than_a_list_has() {
    for space in [4096, 4097, 9000] {
        is_refused(&[MY_RIGHTS; 4097], space, (31, 0));
        is_refused(&[SEND; 2049], space, (31, 0));
        let mut calls = vec![SEND; 2048];
        assert_eq!(written(&calls, space).0, (0, 4096));
        calls.push(RECEIVE);
        is_refused(&calls, space, (31, 0));
    }
    is_written(&[MY_RIGHTS; 4096], &[0x5240_0000; 4096]);
    is_written(&[SEND; 2048], &[0x20C0_0400, 0xF000_0005].repeat(2048));
    is_refused(&[MY_RIGHTS; 4096], 4095, (31, 0));
}

/// Drawn calls of just as many words as a list can have, and of one more.
#[test]
fn lists_of_4096_words_are_written_and_of_4097_are_not() {
    for seed in 0..6 {
        let rng = &mut Rng::new(seed);
        let calls = values_of_words(rng, 4096);
        let (answer, words) = written(&calls, 4096);
        assert_eq!(answer, (0, 4096), "seed {seed}");
        assert!(read(&words) == calls, "seed {seed}");
        is_refused(&calls, 4095, (31, 0));
        is_refused(&values_of_words(rng, 4097), 4100, (31, 0));
    }
}

#[test]
fn list_l_is_written_as_it_came_but_for_its_stray() {
    let calls = read(&LIST_L);
    assert_eq!(calls.len(), 9);
    assert_eq!(calls[6], Value::Refused(10));
    is_refused(&calls, 12, (30, 6));
    let mut list = LIST_L.to_vec();
    list.remove(9);
    is_written(&read(&list), &list);
}

#[test]
fn what_is_read_carries_its_refusal() {
    for (list, codes) in [
        (vec![0xF000_0000], vec![10]),
        (vec![0x3000_0000, 0xFFFF_FFFF], vec![0, 10]),
        (vec![0x0000_0000, 0x9FFF_FFFF, 0xE000_0000], vec![11; 3]),
        (vec![0x1000_0001, 0xF000_0000], vec![13]),
        (vec![0x2001_0000], vec![13]),
        (vec![0x1000_0000], vec![14]),
        (vec![0x2000_0000, 0x5000_0000, 0xF000_0000], vec![14, 0, 10]),
        // 12 isn't tested: no table says which callers there are.
        (vec![0x5FC0_0000, 0x1FC0_0000, 0x4FC0_0001], vec![0, 14, 13]),
    ] {
        assert_eq!(codes_of(&read(&list)), codes, "{}", hex(&list));
    }
}

/// The code of each call that is refused, 0 for the others.
fn codes_of(calls: &[Value]) -> Vec<u32> {
    let code = |call: &Value| match *call {
        Value::Refused(code) => code,
        _ => 0,
    };
    calls.iter().map(code).collect()
}

/// The code of 10, 11, 13 and 14 that the machine answers for a call whose caller it
/// knows, 0 where it is none of them.
fn form_code(call: &Call) -> u32 {
    let mut words = call.words();
    if !call.is_stray() {
        words[0] &= !(63 << 22);
    }
    match code(&bare_table(1, 1), &words) {
        form @ (10 | 11 | 13 | 14) => form,
        _ => 0,
    }
}

/// A drawn list, with calls of every kind and slips of every form.
fn drawn_list(rng: &mut Rng) -> Vec<u32> {
    let table = table(rng, 16, 32);
    list(rng, &table, 30)
}

#[test]
fn reading_refuses_what_the_machine_refuses() {
    let mut met = BTreeSet::new();
    for seed in 0..1500 {
        let list = drawn_list(&mut Rng::new(seed));
        let codes: Vec<u32> = cut(&list).iter().map(form_code).collect();
        assert_eq!(codes_of(&read(&list)), codes, "seed {seed}: {}", hex(&list));
        met.extend(codes);
    }
    assert_eq!(met, BTreeSet::from([0, 10, 11, 13, 14]));
}

/// A list that is read without a refusal is written as it came; of any other the
/// first refused call is told.
#[test]
fn what_is_read_is_written_as_it_came() {
    let (mut whole, mut refused) = (0, 0);
    for seed in 0..1500 {
        let list = drawn_list(&mut Rng::new(seed));
        let calls = read(&list);
        match codes_of(&calls).iter().position(|&code| code != 0) {
            Some(number) => {
                is_refused(&calls, list.len(), (30, number));
                refused += 1;
            }
            None => {
                is_written(&calls, &list);
                whole += usize::from(list.len() > 5);
            }
        }
        // The same without the calls that are refused.
        let free: Vec<u32> = cut(&list)
            .iter()
            .filter(|call| form_code(call) == 0)
            .flat_map(Call::words)
            .collect();
        is_written(&read(&free), &free);
    }
    assert!(whole > 100 && refused > 800, "{whole} {refused}");
}

/// What the writer answers and leaves, and that its words are read as the calls.
#[test]
fn drawn_calls_are_written_and_read() {
    let mut met = [0; 3];
    for seed in 0..3000 {
        let Writing { calls, space } = writing(&mut Rng::new(seed), 12);
        let mut left = space.clone();
        let (code, number) = write(&calls, &mut left);
        let (answer, after) = expected(&columns_of(&calls), &space);
        assert_eq!((code, number), answer, "seed {seed}");
        assert!(left == after, "seed {seed}");
        if code == 0 {
            let list = &left[..number];
            assert!(read(list) == calls, "seed {seed}");
            assert!(cut(list).iter().all(|call| form_code(call) == 0));
        }
        met[(code as usize).saturating_sub(29)] += 1;
    }
    assert!(met.iter().all(|&times| times > 300), "{met:?}");
}

#[test]
fn drawn_calls_fit_unless_a_field_is_too_large() {
    let mut met = BTreeSet::new();
    for seed in 0..4000 {
        let rng = &mut Rng::new(seed);
        let (good, bad) = (value(rng), value_too_large(rng));
        assert!(fits(&good), "{good:?}");
        assert!(!fits(&bad), "{bad:?}");
        let [kind, fields @ ..] = to_columns(&bad).unwrap();
        let largest = LARGEST[kind as usize - 1];
        let over = (0..4).filter(|&i| fields[i] > largest[i]);
        let over: Vec<usize> = over.collect();
        assert_eq!(over.len(), 1, "{bad:?}");
        met.insert((kind, over[0]));
    }
    // Every used field of every kind.
    let used = LARGEST.iter().flatten().filter(|&&l| l > 0).count();
    assert_eq!(met.len(), used);
}

/// All lists of up to two calls out of sixty and more: no two have equal words.
#[test]
fn different_lists_are_different_words() {
    let mut few: BTreeSet<Value> = BTreeSet::new();
    for (call, ..) in rows() {
        let five = to_columns(&call).unwrap();
        for (field, largest) in LARGEST[five[0] as usize - 1].into_iter().enumerate() {
            for number in [0, 1, largest] {
                let mut other = five;
                other[1 + field] = number.min(largest);
                few.extend(from_columns(&other));
            }
        }
    }
    let mut lists = vec![vec![]];
    lists.extend(few.iter().map(|&call| vec![call]));
    let pairs = few
        .iter()
        .flat_map(|&one| few.iter().map(move |&other| vec![one, other]));
    lists.extend(pairs);
    let words = |calls: &Vec<Value>| {
        let ((code, count), words) = written(calls, 4);
        assert_eq!(code, 0);
        words[..count as usize].to_vec()
    };
    let different: BTreeSet<Vec<u32>> = lists.iter().map(words).collect();
    assert!(few.len() > 60, "{}", few.len());
    assert_eq!(different.len(), lists.len());
}

/// Five words that are no call are refused like a call that doesn't fit.
#[test]
fn columns_that_are_no_call() {
    let good = [5, 9, 0, 0, 0];
    for kind in [0, 9, 10, 14, 15, 16, 17, 0x1000_0005, u32::MAX] {
        let columns = [good, [kind, 0, 0, 0, 0], good].concat();
        assert_eq!(from_columns(&columns[5..10]), None);
        assert_eq!(written_columns(&columns, 4), ((30, 1), vec![UNTOUCHED; 4]));
    }
    for kind in 1..=8_u32 {
        for (field, largest) in LARGEST[kind as usize - 1].into_iter().enumerate() {
            let mut five = [kind, 0, 0, 0, 0];
            five[1 + field] = 1;
            let answer = if largest == 0 {
                (30, 1)
            } else {
                (0, 2 + usize::from(kind < 3))
            };
            assert_eq!(
                written_columns(&[good, five].concat(), 4).0,
                answer,
                "{five:?}"
            );
        }
    }
}

#[test]
fn columns_that_end_short() {
    let three = [[5, 9, 0, 0, 0], [2, 3, 0, 4, 5], [3, 6, 0, 7, 0]].concat();
    for length in 0..=three.len() {
        let (answer, left) = written_columns(&three[..length], 5);
        let whole = length / 5;
        let words = [0, 1, 3, 4][length / 5];
        let short = length % 5 != 0;
        assert_eq!(answer, if short { (30, whole) } else { (0, words) });
        let written = if short { 0 } else { words };
        assert!(left[written..].iter().all(|&word| word == UNTOUCHED));
    }
    // Before 31, like any other.
    assert_eq!(write_columns(&three[..14], &mut []), (30, 2));
    assert_eq!(write_columns(&three, &mut []), (31, 0));
}

/// The first bad call is looked for past the 4,096th, and its number is exact. Only then
/// are too many calls 31.
#[test]
fn columns_of_many_calls() {
    let mut columns = [5, 9, 0, 0, 0].repeat(70_000);
    let untouched = vec![UNTOUCHED; 5000];
    assert_eq!(
        written_columns(&columns, 5000),
        ((31, 0), untouched.clone())
    );
    for number in [69_999, 65_536, 65_535, 65_534, 4097, 4096, 4095] {
        columns[5 * number] = 9;
        let answer = written_columns(&columns, 5000);
        assert_eq!(answer, ((30, number), untouched.clone()));
    }
    columns.truncate(5 * 4095);
    columns.extend([8, 1, 1, 1, 1]);
    assert_eq!(written_columns(&columns, 5000).0, (0, 4096));
    columns.push(1);
    assert_eq!(written_columns(&columns, 5000).0, (30, 4096));
}

#[test]
fn drawn_columns_are_written() {
    let mut met = [0; 3];
    for seed in 0..3000 {
        let rng = &mut Rng::new(seed);
        let Writing { calls, space } = writing(rng, 12);
        let mut columns = columns(rng, &calls);
        let mut left = space.clone();
        let answer = write_columns(&columns, &mut left);
        // The answers of the calls themselves, and those of the columns alone.
        let mut of_calls = space.clone();
        assert_eq!(answer, write(&calls, &mut of_calls), "seed {seed}");
        assert!(left == of_calls, "seed {seed}");
        assert!((answer, left) == expected(&columns, &space), "seed {seed}");
        met[(answer.0 as usize).saturating_sub(29)] += 1;
        columns.truncate(columns.len().saturating_sub(rng.below(8)));
        let mut left = space.clone();
        let answer = write_columns(&columns, &mut left);
        assert!((answer, left) == expected(&columns, &space), "seed {seed}");
    }
    assert!(met.iter().all(|&times| times > 300), "{met:?}");
}
