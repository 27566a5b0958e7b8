//! Walls that no list can open (document 02, request (j)): two domains are joined
//! whenever either has a right on the other, and what hangs together is a group. No
//! list lets a domain influence one outside its starting group.

use std::collections::BTreeSet;

use crate::calls::Call;
use crate::table::{domains, rights};

/// The group of domain d in a table: d and every domain that is joined to it, by
/// however many steps.
pub fn component(table: &[u32], d: usize) -> BTreeSet<usize> {
    let mut group = BTreeSet::from([d]);
    // A way from one domain to another needs fewer steps than there are domains.
    for _ in 1..domains(table) {
        let further = one_step_further(table, &group);
        if further == group {
            break;
        }
        group = further;
    }
    group
}

/// The domains of a group and those that are joined to one of them.
fn one_step_further(table: &[u32], group: &BTreeSet<usize>) -> BTreeSet<usize> {
    (0..domains(table))
        .filter(|&v| group.contains(&v) || group.iter().any(|&u| joined(table, u, v)))
        .collect()
}

/// Whether either domain has a right on the other.
fn joined(table: &[u32], u: usize, v: usize) -> bool {
    rights(table, u, v) != 0 || rights(table, v, u) != 0
}

/// Whether each call comes from the group that domain d has in the table. A stray
/// and a caller not below n come from no group.
pub fn from_group(table: &[u32], calls: &[Call], d: usize) -> Vec<bool> {
    let group = component(table, d);
    calls
        .iter()
        .map(|call| call.caller().map(|caller| caller as usize))
        .map(|caller| caller.is_some_and(|caller| group.contains(&caller)))
        .collect()
}
