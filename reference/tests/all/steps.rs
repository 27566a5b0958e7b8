//! Properties of single calls over random tables, and of a whole run against the
//! machine fed call by call.

use crate::support::{code_of, part, shown, UNTOUCHED};
use reference::generate::{call_words, case, damaged_table, list, table, table_of, Case, Rng};
use reference::table::{
    capacity, domains, endpoint_place, endpoint_words, endpoints, owner, rights_place,
    ENDPOINT_WORDS, WAITING_PLACE,
};
use reference::words::{content, to_bytes};
use reference::{check_bytes, check_table, cut, influences, run, step, Call};

/// Word 0 and the name and info words.
fn unchanging(table: &[u32]) -> Vec<u32> {
    let mut words = vec![table[0]];
    for endpoint in 0..endpoints(table) {
        words.extend(&endpoint_words(table, endpoint)[..WAITING_PLACE]);
    }
    words
}

/// Calls `check` on every step of many random lists, with the table before it.
fn each_step(check: impl Fn(&[u32], &Call, &[u32], [u32; 3]) -> bool) {
    for seed in 0..400 {
        let rng = &mut Rng::new(seed);
        let start = table(rng, 5, 4);
        let list = list(rng, &start, 40);
        let mut now = start.clone();
        for (i, call) in cut(&list).iter().enumerate() {
            let before = now.clone();
            let answer = step(&mut now, call);
            let holds = check(&before, call, &now, answer);
            assert!(holds, "call {i}, {}", shown(seed, &start, &list));
        }
    }
}

#[test]
fn an_accepted_table_stays_accepted() {
    each_step(|_, _, after, _| check_table(after) == 0);
}

#[test]
fn names_owners_and_capacities_never_change() {
    each_step(|before, _, after, _| unchanging(before) == unchanging(after));
}

#[test]
fn a_refused_call_leaves_the_table_and_has_no_data() {
    each_step(|before, _, after, answer| {
        code_of(&answer) == 0 || (before == after && answer[1..] == [0, 0])
    });
}

#[test]
fn answers_name_kind_and_caller_and_a_code_of_the_list() {
    each_step(|_, call, _, answer| {
        let code = code_of(&answer);
        let caller = call.caller().unwrap_or(0);
        answer[0] == (call.kind() << 28) | (caller << 22) | code
            && (code == 0 || (10..=23).contains(&code))
    });
}

#[test]
fn a_call_alters_only_what_its_caller_influences() {
    each_step(|before, call, after, _| {
        (0..domains(before)).all(|d| {
            let same = part(before, d) == part(after, d);
            let known = call.caller().map(|caller| caller as usize);
            let reaches = known.is_some_and(|u| u < domains(before) && influences(before, u, d));
            same || reaches
        })
    });
}

/// A table with the unchanging parts and the part of d as in `table`, and all
/// else drawn anew.
fn redrawn_but_for(rng: &mut Rng, table: &[u32], d: usize) -> Vec<u32> {
    let mut other = table_of(rng, domains(table), endpoints(table));
    let row = rights_place(table, d, 0);
    other[row..row + domains(table)].copy_from_slice(&table[row..row + domains(table)]);
    for e in 0..endpoints(table) {
        let place = endpoint_place(table, e);
        let fits = content(other[place + WAITING_PLACE]) as usize <= capacity(table, e);
        let end = if owner(table, e) == d || !fits {
            place + ENDPOINT_WORDS
        } else {
            place + WAITING_PLACE
        };
        other[place..end].copy_from_slice(&table[place..end]);
    }
    other
}

#[test]
fn an_answer_depends_only_on_the_callers_part() {
    let mut redrawn = 0;
    for seed in 0..8000 {
        let rng = &mut Rng::new(seed);
        let one = table(rng, 4, 4);
        let call = cut(&call_words(rng, &one))[0];
        let caller = call.caller().unwrap_or(0) as usize;
        let other = redrawn_but_for(rng, &one, caller.min(domains(&one) - 1));
        assert_eq!(check_table(&other), 0);
        redrawn += usize::from(one != other);
        let answers = [
            step(&mut one.clone(), &call),
            step(&mut other.clone(), &call),
        ];
        let words = call.words();
        assert_eq!(answers[0], answers[1], "{}", shown(seed, &other, &words));
    }
    assert!(redrawn > 4_000);
}

/// What the entry must answer for a case, and the table and answers it leaves.
fn call_by_call(case: &Case, code: u32) -> (u32, u32, Vec<u32>, Vec<u32>) {
    let (mut table, mut answers) = (case.table.clone(), case.answers.clone());
    if code != 0 {
        return (code, 0, table, answers);
    }
    let calls = cut(&case.list);
    for (i, call) in calls.iter().enumerate() {
        answers[3 * i..3 * i + 3].copy_from_slice(&step(&mut table, call));
    }
    (0, calls.len() as u32, table, answers)
}

#[test]
fn a_run_is_the_machine_fed_call_by_call() {
    for seed in 0..1500 {
        let case = case(&mut Rng::new(seed), 5, 5, 40);
        let (mut table, mut answers) = (case.table.clone(), case.answers.clone());
        let (code, count) = run(&mut table, &case.list, &mut answers);
        let expected = call_by_call(&case, code);
        let text = shown(seed, &case.table, &case.list);
        assert!((code, count, table, answers) == expected, "{text}");
    }
}

#[test]
fn the_words_of_the_calls_are_the_list() {
    for seed in 0..1500 {
        let list = case(&mut Rng::new(seed), 3, 3, 40).list;
        let words: Vec<u32> = cut(&list).iter().flat_map(Call::words).collect();
        assert_eq!(words, list, "seed {seed}");
    }
}

#[test]
fn damaged_tables_are_refused_and_stay() {
    for seed in 0..3000 {
        let (damaged, code) = damaged_table(&mut Rng::new(seed), 5, 5);
        let text = shown(seed, &damaged, &[]);
        assert_eq!(check_table(&damaged), code, "{text}");
        assert_eq!(check_bytes(&to_bytes(&damaged)), code, "{text}");
        let (mut table, mut answers) = (damaged.clone(), [UNTOUCHED; 6]);
        let answer = run(&mut table, &[0x5000_0000], &mut answers);
        assert_eq!(answer, (code, 0), "{text}");
        assert!(table == damaged && answers == [UNTOUCHED; 6], "{text}");
    }
}
