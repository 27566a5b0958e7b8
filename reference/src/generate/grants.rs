//! Sets of domains, and lists that only they and nobody known else call in.

use super::{any_set, call_words, damaged_table, grant_word, table, Rng};
use crate::calls::{cut, Call};
use crate::machine::step;
use crate::table::{check_table, domains, right, rights_place, RIGHTS};
use crate::words::word;

/// A set of domains below n, bit d for domain d: few, many, none or all of them.
pub fn set_of_domains(rng: &mut Rng, n: usize) -> u32 {
    let all = (1 << n) - 1;
    match rng.below(8) {
        0 => all,
        1 => 0,
        2 | 3 => 1 << rng.below(n),
        4 | 5 => rng.word() & all,
        _ => rng.word() & rng.word() & all,
    }
}

/// An accepted table with few rights: each domain has some on the next, in an order that
/// is drawn, and the first has GRANT. So rights go a long way, where members let them.
pub fn chained_table(rng: &mut Rng, max_n: usize, max_m: usize) -> Vec<u32> {
    let mut words = table(rng, max_n, max_m);
    let n = domains(&words);
    for rights_word in &mut words[1..1 + n * n] {
        if rng.chance(7, 8) {
            *rights_word = word(RIGHTS, 0);
        }
    }
    let order = rng.order(n);
    for link in order.windows(2) {
        let place = rights_place(&words, link[0], link[1]);
        words[place] = word(RIGHTS, any_set(rng));
    }
    let place = rights_place(&words, order[0], rng.below(n));
    words[place] |= right::GRANT;
    words
}

/// What is lent to one asking for potential rights.
#[derive(Debug, Clone, PartialEq, Eq)]
pub struct PotentialCase {
    pub table: Vec<u32>,
    /// The set of the domains that may call.
    pub members: u32,
    /// Holds words that a refusal must leave.
    pub space: Vec<u32>,
}

/// An asking, now and then one that is refused by 2 to 6 or 32.
pub fn potential_case(rng: &mut Rng, max_n: usize, max_m: usize) -> PotentialCase {
    let table = match rng.below(8) {
        0 => damaged_table(rng, max_n, max_m).0,
        1..=4 => chained_table(rng, max_n, max_m),
        _ => table(rng, max_n, max_m),
    };
    let n = match check_table(&table) {
        0 => domains(&table),
        _ => rng.between(1, max_n),
    };
    let mut members = set_of_domains(rng, n);
    if rng.chance(1, 8) {
        members |= 1 << rng.size(n, 31);
    }
    let length = match rng.below(16) {
        0 => n * n - 1,
        1 => n * n + 1,
        2 => rng.below(300),
        _ => n * n,
    };
    let space = (0..length).map(|_| rng.word()).collect();
    PotentialCase {
        table,
        members,
        space,
    }
}

/// What is asked of those who could influence a domain.
#[derive(Debug, Clone, PartialEq, Eq)]
pub struct InfluenceCase {
    pub table: Vec<u32>,
    /// The set of the domains that make calls.
    pub actors: u32,
    pub domain: u32,
}

/// Draws a question about those who could influence a domain, now and then one that is
/// refused by 2 to 5 or 32.
pub fn influence_case(rng: &mut Rng, max_n: usize, max_m: usize) -> InfluenceCase {
    let PotentialCase { table, members, .. } = potential_case(rng, max_n, max_m);
    let n = match check_table(&table) {
        0 => domains(&table),
        _ => rng.between(1, max_n),
    };
    let domain = match rng.below(16) {
        0 => n as u32,
        1 => rng.word(),
        _ => rng.below(n) as u32,
    };
    InfluenceCase {
        table,
        actors: members,
        domain,
    }
}

/// A list of up to about `max_words` words for an accepted table, in which every known
/// caller is a member; strays and unknown callers stand in it too. Many of its calls are
/// grants.
pub fn list_by(rng: &mut Rng, table: &[u32], members: u32, max_words: usize) -> Vec<u32> {
    let mut now = table.to_vec();
    let mut list = Vec::new();
    // Where there are few members most calls that are drawn are others'.
    for _ in 0..16 * max_words {
        let words = if rng.chance(1, 2) {
            vec![grant_word(rng, &now)]
        } else {
            call_words(rng, &now)
        };
        let allowed = |call: &Call| {
            let caller = call.caller().unwrap_or(63) as usize;
            caller >= domains(table) || members & (1 << caller) != 0
        };
        for call in cut(&words).iter().filter(|call| allowed(call)) {
            step(&mut now, call);
            list.extend(call.words());
        }
        if list.len() >= max_words {
            break;
        }
    }
    list
}
