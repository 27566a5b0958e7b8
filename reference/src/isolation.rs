//! The isolation rule between two lines (document 02, request (g)): one list run
//! from two accepted tables that differ only where domain d can't be reached gives
//! d the same view of both.

use std::collections::BTreeSet;

use crate::calls::Call;
use crate::influence::sources;
use crate::table::{domains, endpoint_words, endpoints, owner, rights, WAITING_PLACE};

/// The set for domain d over the whole list: the one at the first call, which is d
/// alone where there is no call.
pub fn members(table: &[u32], calls: &[Call], d: usize) -> BTreeSet<usize> {
    sources(table, calls, d).swap_remove(0)
}

/// Whether two accepted tables meet the rule's condition for a list and domain d:
/// n, m, names, owners and capacities are equal, and they agree on each member of
/// the set for d over the whole list, worked out on the first of them.
pub fn agree(one: &[u32], other: &[u32], calls: &[Call], d: usize) -> bool {
    same_unchanging_parts(one, other)
        && members(one, calls, d)
            .iter()
            .all(|&member| agree_on(one, other, member))
}

/// Whether n, m, names, owners and capacities are equal.
fn same_unchanging_parts(one: &[u32], other: &[u32]) -> bool {
    one[0] == other[0]
        && (0..endpoints(one)).all(|e| {
            endpoint_words(one, e)[..WAITING_PLACE] == endpoint_words(other, e)[..WAITING_PLACE]
        })
}

/// Whether two tables agree on a member: on the rights it holds, on the rights that
/// each domain holds on it, and on the queues and lost counts of its endpoints.
fn agree_on(one: &[u32], other: &[u32], member: usize) -> bool {
    let same = |holder, target| rights(one, holder, target) == rights(other, holder, target);
    let same_held = (0..domains(one)).all(|target| same(member, target));
    let same_held_on_it = (0..domains(one)).all(|holder| same(holder, member));
    let same_queues = (0..endpoints(one))
        .filter(|&e| owner(one, e) == member)
        .all(|e| endpoint_words(one, e) == endpoint_words(other, e));
    same_held && same_held_on_it && same_queues
}
