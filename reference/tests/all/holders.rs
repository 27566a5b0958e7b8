//! The panel's words (document 02, request (h)): rows for the words and for who can
//! reach a domain, the edges of 6 and 32, runs and single calls that are lent the words,
//! and chains worked out in slower ways.

use crate::support::{bare_table, call, code_of, rights_table, shown, UNTOUCHED};
use reference::example::{LIST_L, TABLE_T};
use reference::generate::{
    call_words, damaged_table, lent_panel, panel_case, question, table, PanelCase, Rng,
};
use reference::table::domains;
use reference::words::hex;
use reference::{
    component, cut, holders, run, run_with_holders, step, step_with_holders, who_reaches,
};

/// The panel's words of a table, straight from its rights words.
fn worked_out(table: &[u32]) -> Vec<u32> {
    let n = domains(table);
    let mut words = vec![0; n];
    for place in 0..n * n {
        if table[1 + place] != 0x2000_0000 {
            words[place % n] += 1 << (place / n);
        }
    }
    words
}

#[test]
fn any_right_sets_the_holders_bit_in_the_targets_word() {
    assert_eq!(holders(&TABLE_T), [0b010, 0b001, 0b010]);
    for set in 1..16 {
        assert_eq!(holders(&rights_table(3, &[(2, 0, set)])), [0b100, 0, 0]);
        // A right on oneself is one like any other.
        assert_eq!(holders(&rights_table(3, &[(1, 1, set)])), [0, 0b010, 0]);
    }
    assert_eq!(holders(&bare_table(16, 1)), [0; 16]);
    let all: Vec<(usize, usize, u32)> = (0..256).map(|p| (p / 16, p % 16, 8)).collect();
    assert_eq!(holders(&rights_table(16, &all)), [0xFFFF; 16]);
}

/// A run with the panel's words, which hold something else before it, and with enough
/// answer space.
fn run_panel(table: &[u32], list: &[u32], panel: usize) -> ((u32, u32), Vec<u32>) {
    let mut answers = vec![UNTOUCHED; 3 * list.len()];
    let mut panel = vec![UNTOUCHED; panel];
    let answer = run_with_holders(&mut table.to_vec(), list, &mut answers, &mut panel);
    (answer, panel)
}

#[test]
fn a_run_leaves_what_its_last_table_says() {
    // Domain 1 gives domain 0 SEND on domain 2.
    let after = vec![0b010, 0b001, 0b011];
    assert_eq!(run_panel(&TABLE_T, &LIST_L, 3), ((0, 9), after.clone()));
    assert_eq!(run_panel(&TABLE_T, &LIST_L[..3], 3), ((0, 2), after));
    // A remove and a revoke of the last right take the bit away, of another leave it.
    let before = || vec![0b010, 0b001, 0b010];
    for (word, last) in [
        (0x7042_0007, 0),     // remove of all three
        (0x7042_0003, 0b010), // remove of two
        (0x8042_0107, 0b010), // revoke without REVOKE
        (0x6042_0107, 0b010), // grant to itself
    ] {
        let after = vec![0b010, 0b001, last];
        assert_eq!(run_panel(&TABLE_T, &[word], 3), ((0, 1), after));
    }
    let with_revoke = rights_table(3, &[(1, 2, 8), (1, 0, 1), (0, 2, 3)]);
    assert_eq!(holders(&with_revoke), [0b010, 0, 0b011]);
    let taken = run_panel(&with_revoke, &[0x8042_0003], 3).1;
    assert_eq!(taken, [0b010, 0, 0b010]);
    let half_taken = run_panel(&with_revoke, &[0x8042_0001], 3).1;
    assert_eq!(half_taken, [0b010, 0, 0b011]);
    // An empty list sets them too, and so does one of refused calls.
    assert_eq!(run_panel(&TABLE_T, &[], 3), ((0, 0), before()));
    assert_eq!(run_panel(&TABLE_T, &[0xF000_0000], 3), ((0, 1), before()));
}

#[test]
fn code_6_other_than_n_of_the_panels_words() {
    for list in [&LIST_L[..], &[]] {
        for lent in [0, 1, 2, 4, 5, 16, 17] {
            let (answer, panel) = run_panel(&TABLE_T, list, lent);
            assert_eq!((answer, panel), ((6, 0), vec![UNTOUCHED; lent]));
        }
        assert_eq!(run_panel(&TABLE_T, list, 3).0 .0, 0);
    }
    for n in 1..=16 {
        for lent in 0..=17 {
            let code = if lent == n { 0 } else { 6 };
            assert_eq!(run_panel(&bare_table(n, 0), &[], lent).0, (code, 0));
        }
    }
    // After 1 and the table's codes.
    let long = [0x5000_0000; 4097];
    assert_eq!(run_panel(&TABLE_T, &long, 2).0, (1, 0));
    assert_eq!(run_panel(&TABLE_T[..33], &LIST_L, 2).0, (3, 0));
}

/// The run of a case is that without the panel's words, but for 6; and the words are
/// those of the last table, or as they were where the entry refuses.
fn check_case(seed: u64, given: &PanelCase, met: &mut [usize; 7]) {
    let PanelCase { case, panel } = given;
    let text = shown(seed, &case.table, &case.list);
    let (mut table, mut answers) = (case.table.clone(), case.answers.clone());
    let mut left = panel.clone();
    let answer = run_with_holders(&mut table, &case.list, &mut answers, &mut left);
    let (mut plain, mut plain_answers) = (case.table.clone(), case.answers.clone());
    let mut expected = run(&mut plain, &case.list, &mut plain_answers);
    if expected.0 == 0 && panel.len() != domains(&case.table) {
        expected = (6, 0);
        (plain, plain_answers) = (case.table.clone(), case.answers.clone());
    }
    assert_eq!(answer, expected, "{text}");
    assert!(table == plain && answers == plain_answers, "{text}");
    let words = match answer.0 {
        0 => worked_out(&table),
        _ => panel.clone(),
    };
    assert_eq!(left, words, "{text}");
    met[answer.0 as usize] += 1;
}

#[test]
fn runs_that_are_lent_the_panels_words() {
    let mut met = [0; 7];
    for seed in 0..2000 {
        let case = panel_case(&mut Rng::new(seed), 6, 5, 30);
        check_case(seed, &case, &mut met);
    }
    for seed in 0..60 {
        check_case(seed, &panel_case(&mut Rng::new(seed), 16, 32, 60), &mut met);
    }
    assert!(met.iter().all(|&times| times > 10), "{met:?}");
    assert!(met[6] > 250 && met[0] > 1000, "{met:?}");
}

/// After every call the words are what the table says, fed call by call, whatever they
/// held; and the last ones are those of the whole run.
#[test]
fn single_calls_that_are_lent_the_panels_words() {
    let mut altered = 0;
    for seed in 0..500 {
        let rng = &mut Rng::new(seed);
        let start = table(rng, 6, 5);
        let mut now = start.clone();
        let mut list = Vec::new();
        let mut words = lent_panel(rng, domains(&start));
        words.resize(domains(&start), UNTOUCHED);
        for _ in 0..20 {
            let one = cut(&call_words(rng, &now))[0];
            list.extend(one.words());
            let before = words.clone();
            let mut plain = now.clone();
            let expected = step(&mut plain, &one);
            let answer = step_with_holders(&mut now, &one, &mut words);
            assert_eq!(answer, Ok(expected), "{}", shown(seed, &start, &list));
            assert!(now == plain, "{}", shown(seed, &start, &list));
            assert_eq!(words, worked_out(&now), "{}", shown(seed, &start, &list));
            altered += usize::from(before != words);
            if rng.chance(1, 8) {
                words.fill(UNTOUCHED);
            }
        }
        // A stray that follows a look up would be cut otherwise.
        if cut(&list).len() == 20 {
            let (answer, last) = run_panel(&start, &list, domains(&start));
            assert_eq!(answer, (0, 20));
            assert_eq!(last, worked_out(&now), "{}", shown(seed, &start, &list));
        }
    }
    assert!(altered > 1000, "{altered}");
}

#[test]
fn a_single_call_is_refused_by_the_table_and_then_by_6() {
    let ask = call(&[0x5000_0000]);
    for seed in 0..400 {
        let rng = &mut Rng::new(seed);
        let (damaged, code) = damaged_table(rng, 5, 5);
        let words = lent_panel(rng, 3);
        let (mut table, mut left) = (damaged.clone(), words.clone());
        let answer = step_with_holders(&mut table, &ask, &mut left);
        assert_eq!(answer, Err(code), "{}", shown(seed, &damaged, &words));
        assert!(table == damaged && left == words);
    }
    // A grant that would be done.
    let grant = call(&[0x6042_0001]);
    for lent in [0, 1, 2, 4, 16, 17] {
        let (mut table, mut left) = (TABLE_T.to_vec(), vec![UNTOUCHED; lent]);
        assert_eq!(step_with_holders(&mut table, &grant, &mut left), Err(6));
        assert!(table == TABLE_T && left == vec![UNTOUCHED; lent]);
    }
    let (mut table, mut left) = (TABLE_T.to_vec(), vec![UNTOUCHED; 3]);
    let answer = step_with_holders(&mut table, &grant, &mut left).unwrap();
    assert_eq!((code_of(&answer), left), (0, vec![0b010, 0b001, 0b011]));
}

/// Who reaches each domain in table T, where 1 and 0 have a right on each other and 1
/// on 2.
#[test]
fn who_reaches_a_domain_in_table_t() {
    let words = holders(&TABLE_T);
    assert_eq!(who_reaches(&words, 0), (0, 0b011));
    assert_eq!(who_reaches(&words, 1), (0, 0b011));
    assert_eq!(who_reaches(&words, 2), (0, 0b111));
}

/// Sixteen domains in one chain: each is reached by those before it and itself.
#[test]
fn a_chain_of_any_length_reaches() {
    let chain: Vec<u32> = (0..16)
        .map(|d| if d == 0 { 0 } else { 1 << (d - 1) })
        .collect();
    let back: Vec<u32> = (0..16)
        .map(|d| if d == 15 { 0 } else { 1 << (d + 1) })
        .collect();
    for d in 0..16 {
        assert_eq!(who_reaches(&chain, d), (0, (2 << d) - 1));
        assert_eq!(who_reaches(&back, d), (0, 0xFFFF & !((1 << d) - 1)));
    }
    for n in 1..=16 {
        for d in 0..n as u32 {
            assert_eq!(who_reaches(&vec![0; n], d), (0, 1 << d));
            assert_eq!(who_reaches(&vec![(1 << n) - 1; n], d), (0, (1 << n) - 1));
        }
    }
}

#[test]
fn code_32_words_bits_or_domain() {
    assert_eq!(who_reaches(&[], 0), (32, 0));
    assert_eq!(who_reaches(&[0; 17], 0), (32, 0));
    assert_eq!(who_reaches(&[0; 33], 0), (32, 0));
    for n in 1..=16 {
        let words = vec![0; n];
        for domain in [n as u32, 16, 31, 32, 256, u32::MAX] {
            let code = if (domain as usize) < n { 0 } else { 32 };
            assert_eq!(who_reaches(&words, domain).0, code, "{n} {domain}");
        }
        for at in 0..n {
            for bit in 0..32 {
                let mut words = words.clone();
                words[at] = 1 << bit;
                let code = if bit < n { 0 } else { 32 };
                let (answered, set) = who_reaches(&words, 0);
                assert_eq!(answered, code, "{n} {at} {bit}");
                assert_eq!(set == 0, code == 32);
            }
        }
    }
}

fn set_of(domains: impl Iterator<Item = usize>) -> u32 {
    domains.fold(0, |set, d| set | 1 << d)
}

/// Every pair of domains with a chain, by asking for each domain whether the chain can
/// go through it.
fn joined_up(words: &[u32]) -> Vec<Vec<bool>> {
    let n = words.len();
    let mut reaches = vec![vec![false; n]; n];
    for (from, to) in (0..n * n).map(|pair| (pair / n, pair % n)) {
        reaches[from][to] = from == to || words[to] >> from & 1 == 1;
    }
    for through in 0..n {
        for (from, to) in (0..n * n).map(|pair| (pair / n, pair % n)) {
            reaches[from][to] |= reaches[from][through] && reaches[through][to];
        }
    }
    reaches
}

/// Whether there is a chain from one domain to another that goes through none of the
/// domains passed, by trying all of them.
fn chain_found(words: &[u32], from: usize, to: usize, passed: u32) -> bool {
    from == to
        || (0..words.len()).any(|next| {
            let right = words[next] >> from & 1 == 1;
            right && passed >> next & 1 == 0 && chain_found(words, next, to, passed | 1 << next)
        })
}

/// All panels of up to three domains, and many of four.
#[test]
fn chains_are_those_found_by_trying_all() {
    for n in 1..=4_usize {
        for drawn in (0..1_u32 << (n * n)).step_by(if n == 4 { 7 } else { 1 }) {
            let words: Vec<u32> = (0..n).map(|d| drawn >> (n * d) & ((1 << n) - 1)).collect();
            for to in 0..n {
                let set = set_of((0..n).filter(|&from| chain_found(&words, from, to, 1 << from)));
                assert_eq!(who_reaches(&words, to as u32), (0, set), "{}", hex(&words));
            }
        }
    }
}

#[test]
fn drawn_questions() {
    let (mut refused, mut far) = (0, 0);
    for seed in 0..3000 {
        let (words, domain) = question(&mut Rng::new(seed));
        let n = words.len();
        let right =
            (1..=16).contains(&n) && words.iter().all(|&word| word < 1 << n) && domain < n as u32;
        let (code, set) = who_reaches(&words, domain);
        if !right {
            assert_eq!((code, set), (32, 0), "seed {seed}");
            refused += 1;
            continue;
        }
        let reaches = joined_up(&words);
        let expected = set_of((0..n).filter(|&from| reaches[from][domain as usize]));
        assert_eq!((code, set), (0, expected), "seed {seed}: {}", hex(&words));
        far += usize::from(set.count_ones() > (words[domain as usize] | 1 << domain).count_ones());
    }
    assert!(refused > 700, "{refused}");
    assert!(far > 700, "{far} with a chain of two and more");
}

/// Who reaches a domain is of its group, and a call of any other domain leaves who does.
#[test]
fn only_who_reaches_a_domain_alters_who_does() {
    let mut altering = 0;
    for seed in 0..600 {
        let rng = &mut Rng::new(seed);
        let start = table(rng, 8, 2);
        let one = cut(&call_words(rng, &start))[0];
        let mut after = start.clone();
        step(&mut after, &one);
        altering += usize::from(holders(&start) != holders(&after));
        for d in 0..domains(&start) {
            let text = shown(seed, &start, &one.words());
            let group = set_of(component(&start, d).into_iter());
            let (_, set) = who_reaches(&holders(&start), d as u32);
            assert_eq!(set & !group, 0, "{text}");
            let caller = one.caller().unwrap_or(63);
            if set & 1_u64.checked_shl(caller).unwrap_or(0) as u32 == 0 {
                assert_eq!(who_reaches(&holders(&after), d as u32), (0, set), "{text}");
            }
        }
    }
    assert!(altering > 30, "{altering}");
}
