//! Who could influence a domain: who is in its source set for some list, where some
//! domains only, the actors, make calls. The papers don't speak of it.
//!
//! A caller joins a source set by a right that it has on a member just before its call,
//! and every right that calls of the actors could ever give is a potential right. So it
//! is the domain, and every actor with a chain of potential rights, of these actors, to
//! the domain through actors.

use crate::calls::MY_RIGHTS;
use crate::potential::{grants_for_all, potential_rights};
use crate::table::{check_table, domains};
use crate::words::word;

/// Returns 0 and the set of those that could influence a domain, bit u for domain u; or,
/// with an empty set, the table's 2 to 5, then 32 where the domain isn't below n or the
/// actors have a bit from n on.
pub fn could_influence(table: &[u32], actors: u32, domain: u32) -> (u32, u32) {
    let code = check_table(table);
    if code != 0 {
        return (code, 0);
    }
    let n = domains(table);
    if domain as usize >= n || actors >> n != 0 {
        return (32, 0);
    }
    let mut potential = vec![0; n * n];
    potential_rights(table, actors, &mut potential);
    let mut set = 1 << domain;
    // A chain from one domain to another has fewer rights than there are domains.
    for _ in 1..n {
        set |= one_right_further(&potential, n, set) & actors;
    }
    (0, set)
}

/// Returns the domains with some right on a member of a set.
fn one_right_further(rights: &[u32], n: usize, set: u32) -> u32 {
    let pairs = (0..n * n).filter(|&pair| set >> (pair % n) & 1 == 1);
    pairs
        .filter(|&pair| rights[pair] != 0)
        .fold(0, |holders, pair| holders | 1 << (pair / n))
}

/// Returns the list of actors' calls that makes every source set of an accepted table as
/// large as calls of theirs can, all of them at once: the grants that give all potential
/// rights, then n rounds in which each actor asks for its rights.
///
/// A chain of rights has at most n holders, and each makes its call in a later round than
/// the one before it.
pub fn influence_list(table: &[u32], actors: u32) -> Vec<u32> {
    let n = domains(table);
    let asking = (0..n).filter(|&actor| actors >> actor & 1 == 1);
    let round: Vec<u32> = asking
        .map(|actor| word(MY_RIGHTS, (actor << 22) as u32))
        .collect();
    [grants_for_all(table, actors), round.repeat(n)].concat()
}
