//! The panel's words, as they are lent to a run and as they are asked.

use super::{case, Case, Rng};
use crate::table::{check_table, domains, DOMAINS_MAX};

/// What is lent to one run with the panel's words.
#[derive(Debug, Clone, PartialEq, Eq)]
pub struct PanelCase {
    pub case: Case,
    /// Holds words that a run must overwrite and an entry refusal leave.
    pub panel: Vec<u32>,
}

/// A run, now and then with something that an entry refuses, 1 to 6: 6 also for the
/// panel's words.
pub fn panel_case(rng: &mut Rng, max_n: usize, max_m: usize, max_words: usize) -> PanelCase {
    let case = case(rng, max_n, max_m, max_words);
    let n = match check_table(&case.table) {
        0 => domains(&case.table),
        _ => rng.between(1, max_n.clamp(1, DOMAINS_MAX)),
    };
    let panel = lent_panel(rng, n);
    PanelCase { case, panel }
}

/// Words to be lent for a table of n domains, now and then other than n of them.
pub fn lent_panel(rng: &mut Rng, n: usize) -> Vec<u32> {
    let length = match rng.below(16) {
        0 => n - 1,
        1 => n + 1,
        2 => rng.below(2 * DOMAINS_MAX),
        _ => n,
    };
    (0..length).map(|_| rng.word()).collect()
}

/// A panel's words for n domains: few or many rights, at times in long chains.
pub fn panel(rng: &mut Rng, n: usize) -> Vec<u32> {
    let times = rng.pick(&[0, 1, 1, 2, 4]);
    let mut words = vec![0; n];
    for word in &mut words {
        for holder in 0..n {
            *word |= u32::from(rng.chance(times, 16)) << holder;
        }
    }
    if rng.chance(1, 2) {
        put_chain_in(rng, &mut words);
    }
    words
}

/// Puts in a chain of rights through the domains, in an order that is drawn.
fn put_chain_in(rng: &mut Rng, words: &mut [u32]) {
    for link in rng.order(words.len()).windows(2) {
        words[link[1]] |= 1 << link[0];
    }
}

/// Words and the domain that is asked about, now and then refused by 32.
pub fn question(rng: &mut Rng) -> (Vec<u32>, u32) {
    let n = rng.size(1, DOMAINS_MAX);
    let mut words = panel(rng, n);
    let mut domain = rng.below(n) as u32;
    match rng.below(16) {
        0 => words.clear(),
        1 => words.resize(DOMAINS_MAX + rng.between(1, 8), 0),
        2 | 3 => words[rng.below(n)] |= 1 << rng.size(n, 31),
        4 => domain = n as u32,
        5 => domain = rng.size(n, u32::MAX as usize) as u32,
        _ => {}
    }
    (words, domain)
}
