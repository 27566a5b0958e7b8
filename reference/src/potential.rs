//! Potential rights: what could ever come of a table's rights if some domains only, the
//! members, were to make calls. The papers don't speak of it.
//!
//! Grants alone add rights, and a right that a grant needs can be had at the same time
//! as any other. So the potential rights are the least matrix that has the table's
//! rights and all that a member's grant would add to it: where a member has GRANT among
//! its rights on a target and is the recipient or has some right on it, the recipient's
//! rights on the target contain the member's.

use crate::calls::{cut, GRANT};
use crate::machine::step;
use crate::table::{check_table, domains, right, rights};
use crate::words::word;

/// Puts the potential rights into n × n lent words, h's on g at h × n + g, for an
/// accepted table and a set of members, bit d for domain d: 0; or, writing nothing, the
/// table's 2 to 5, then 6 if other than n × n words are lent, then 32 if the set has a
/// bit from n on.
pub fn potential_rights(table: &[u32], members: u32, space: &mut [u32]) -> u32 {
    let code = check_table(table);
    if code != 0 {
        return code;
    }
    let n = domains(table);
    if space.len() != n * n {
        return 6;
    }
    if members >> n != 0 {
        return 32;
    }
    space.copy_from_slice(&closed(table, members));
    0
}

/// The least matrix that has the table's rights and is closed under members' grants.
fn closed(table: &[u32], members: u32) -> Vec<u32> {
    let n = domains(table);
    let pairs = (0..n * n).map(|pair| rights(table, pair / n, pair % n));
    let mut matrix: Vec<u32> = pairs.collect();
    loop {
        let before = matrix.clone();
        for (u, g, h) in grants(n, members) {
            if may_grant(|holder, target| matrix[holder * n + target], u, g, h) {
                matrix[h * n + g] |= matrix[u * n + g];
            }
        }
        if matrix == before {
            return matrix;
        }
    }
}

/// Every member as the caller, with every target and every recipient.
fn grants(n: usize, members: u32) -> impl Iterator<Item = (usize, usize, usize)> {
    (0..n * n * n)
        .map(move |grant| (grant / n / n, grant / n % n, grant % n))
        .filter(move |&(caller, ..)| members & (1 << caller) != 0)
}

/// Whether u may grant h all that it has on g.
fn may_grant(rights: impl Fn(usize, usize) -> u32, u: usize, g: usize, h: usize) -> bool {
    rights(u, g) & right::GRANT != 0 && (u == h || rights(u, h) != 0)
}

/// A list of grants by members that gives every potential right of an accepted table.
/// Each of its calls adds some right, so it never has more than 4 × 16 × 16.
///
/// It goes in rounds. In each come the grants that can be done on the table before it,
/// so that a right comes by as few grants after one another as can be.
pub fn grants_for_all(table: &[u32], members: u32) -> Vec<u32> {
    let mut now = table.to_vec();
    let mut list = Vec::new();
    loop {
        let before = now.clone();
        for (u, g, h) in grants(domains(table), members) {
            let set = rights(&before, u, g);
            let adds = set & !rights(&now, h, g) != 0;
            if adds && may_grant(|holder, target| rights(&before, holder, target), u, g, h) {
                let call = grant_word(u, g, h, set);
                after(&mut now, &[call]);
                list.push(call);
            }
        }
        if now == before {
            return list;
        }
    }
}

fn grant_word(caller: usize, target: usize, recipient: usize, set: u32) -> u32 {
    let fields = (caller << 22) | (target << 16) | (recipient << 8);
    word(GRANT, fields as u32 | set)
}

/// A short list of grants by members that gives the holder the wanted rights on the
/// target, none where they aren't potential: of all grants those without which the
/// rights don't come. It isn't always the shortest there is.
pub fn grants_for(
    table: &[u32],
    members: u32,
    holder: usize,
    target: usize,
    wanted: u32,
) -> Option<Vec<u32>> {
    let comes = |list: &[u32]| {
        let mut now = table.to_vec();
        after(&mut now, list);
        rights(&now, holder, target) & wanted == wanted
    };
    let mut list = grants_for_all(table, members);
    if !comes(&list) {
        return None;
    }
    // Fewer grants never give more, so what is needed once stays needed.
    for place in (0..list.len()).rev() {
        let call = list.remove(place);
        if !comes(&list) {
            list.insert(place, call);
        }
    }
    Some(list)
}

/// Lets the machine do the calls of a list.
fn after(table: &mut [u32], list: &[u32]) {
    for call in cut(list) {
        step(table, &call);
    }
}
