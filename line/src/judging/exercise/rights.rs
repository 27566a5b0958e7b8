//! Each pair of a holder and a target granted, granted again, removed and removed
//! again, as far as the rights lead: first all grants that give something, until none
//! does any more; then every right given up, and given back where somebody can.

use std::collections::BTreeSet;

use reference::calls::Call;
use reference::table::{domains, endpoints, owner, right, rights};

use super::planner::{grant, my_rights, remove, revoke, send, Planned, Planner};

/// Every grant that gives something, twice, until none does; the table that is left
/// is beside the lists. Of those that give nothing or are refused, each caller
/// makes one for each target and number, to itself and to another; and whatever part
/// of the rights on a target it has, it tries to give itself and to give up each set,
/// and to give the target something.
pub fn grown(table: &[u32]) -> (Vec<Planned>, Vec<u32>) {
    let mut plan = Planner::new("every grant, as far as rights lead", table);
    let mut tried = BTreeSet::new();
    let mut own = BTreeSet::new();
    for (holder, target) in pairs(domains(table)) {
        try_own(&mut plan, &mut own, holder, target);
    }
    while grow(&mut plan, &mut tried, &mut own) {}
    let table = plan.table().to_vec();
    (plan.lists(), table)
}

/// What distinguishes tries: caller, target, whether it is to itself, number.
type Tried = BTreeSet<(usize, usize, bool, u32)>;

/// And of those with its own rights: kind, holder, target, what it has and what it names.
type OwnRights = BTreeSet<(u32, usize, usize, u32, u32)>;

/// Goes once through all grants; whether one of them gave something.
fn grow(plan: &mut Planner, tried: &mut Tried, own: &mut OwnRights) -> bool {
    let mut gave = false;
    for (caller, target, recipient) in triples(domains(plan.table())) {
        for set in 1..=right::ALL {
            let call = grant(caller, target, recipient, set);
            if plan.alters(&call) {
                gave = true;
                use_right(plan, recipient, target);
                plan.make(call);
                use_right(plan, recipient, target);
                plan.make(call);
                plan.make(my_rights(recipient));
                try_own(plan, own, recipient, target);
                give_to(plan, recipient, target);
            } else if tried.insert((caller, target, caller == recipient, plan.code(&call))) {
                plan.make(call);
                plan.make(my_rights(recipient));
            }
        }
    }
    gave
}

/// A holder tries to give itself and to give up each set of rights on a target that it
/// can't, once for each part of the rights that it has there.
fn try_own(plan: &mut Planner, tried: &mut OwnRights, holder: usize, target: usize) {
    let has = rights(plan.table(), holder, target);
    for set in 1..=right::ALL {
        for call in [
            grant(holder, target, holder, set),
            remove(holder, target, set),
        ] {
            let what = (call.kind(), holder, target, has, set);
            if plan.code(&call) != 0 && tried.insert(what) {
                plan.make(call);
            }
        }
    }
}

/// A giver makes one grant to a recipient for each number that it gets, whatever the
/// rights are on: what it has on the recipient may decide.
fn give_to(plan: &mut Planner, giver: usize, recipient: usize) {
    let mut numbers = BTreeSet::new();
    for target in 0..domains(plan.table()) {
        for set in 1..=right::ALL {
            let call = grant(giver, target, recipient, set);
            if numbers.insert(plan.code(&call)) {
                plan.make(call);
            }
        }
    }
}

fn triples(n: usize) -> impl Iterator<Item = (usize, usize, usize)> {
    let pairs = pairs(n);
    pairs.flat_map(move |(caller, target)| (0..n).map(move |recipient| (caller, target, recipient)))
}

fn pairs(n: usize) -> impl Iterator<Item = (usize, usize)> {
    (0..n).flat_map(move |first| (0..n).map(move |second| (first, second)))
}

/// A holder sends to an endpoint of the target, whether or not it may.
fn use_right(plan: &mut Planner, holder: usize, target: usize) {
    let table = plan.table();
    let to = (0..endpoints(table)).find(|&e| owner(table, e) == target);
    if let Some(endpoint) = to {
        let message = plan.message();
        plan.make(send(holder, endpoint, message));
    }
}

/// Every right taken back from each holder by each who can, twice, so that the second
/// time there is nothing to take; and given back where somebody can.
pub fn taken_back(what: &str, table: &[u32]) -> Vec<Planned> {
    let mut plan = Planner::new(what, table);
    for (caller, target, holder) in triples(domains(table)) {
        for set in 1..=right::ALL {
            let call = revoke(caller, target, holder, set);
            if plan.alters(&call) {
                for _ in 0..2 {
                    use_right(&mut plan, holder, target);
                    plan.make(call);
                }
                plan.make(my_rights(holder));
                give_back(&mut plan, holder, target, set);
            }
        }
    }
    plan.lists()
}

/// Every right given up and, where somebody can, given back; then all that can be is
/// given up for good, and everybody tries everything.
pub fn given_up(what: &str, table: &[u32]) -> Vec<Planned> {
    let mut plan = Planner::new(what, table);
    let mut own = BTreeSet::new();
    for (holder, target) in pairs(domains(table)) {
        for set in 1..=right::ALL {
            if plan.alters(&remove(holder, target, set)) {
                give_up(&mut plan, holder, target, set);
                try_own(&mut plan, &mut own, holder, target);
                give_to(&mut plan, holder, target);
                give_back(&mut plan, holder, target, set);
            }
        }
    }
    for (holder, target) in pairs(domains(table)) {
        for set in 1..=right::ALL {
            if plan.alters(&remove(holder, target, set)) {
                plan.make(remove(holder, target, set));
            }
        }
        plan.make(my_rights(holder));
    }
    everybody_tries(&mut plan);
    plan.lists()
}

/// A right is used, given up, used and given up again.
fn give_up(plan: &mut Planner, holder: usize, target: usize, set: u32) {
    for _ in 0..2 {
        use_right(plan, holder, target);
        plan.make(remove(holder, target, set));
    }
    plan.make(my_rights(holder));
}

/// The first one who can gives it back.
fn give_back(plan: &mut Planner, holder: usize, target: usize, set: u32) {
    let gives = |giver: &usize| plan.alters(&grant(*giver, target, holder, set));
    if let Some(giver) = (0..domains(plan.table())).find(gives) {
        plan.make(grant(giver, target, holder, set));
        plan.make(my_rights(holder));
    }
}

/// Each caller makes a send, a grant, a remove and a revoke for each number that it
/// gets, on each owner or target.
fn everybody_tries(plan: &mut Planner) {
    let mut tried = BTreeSet::new();
    let (n, m) = (domains(plan.table()), endpoints(plan.table()));
    for caller in 0..n {
        for endpoint in 0..m {
            try_once(
                plan,
                &mut tried,
                caller,
                endpoint,
                send(caller, endpoint, 1),
            );
        }
    }
    for (caller, target, recipient) in triples(n) {
        for set in 1..=right::ALL {
            let calls = [
                grant(caller, target, recipient, set),
                remove(caller, target, set),
                revoke(caller, target, recipient, set),
            ];
            for call in calls {
                if plan.code(&call) != 0 {
                    try_once(plan, &mut tried, caller, target, call);
                }
            }
        }
    }
}

/// What distinguishes tries: kind, caller, whom it is about, number.
type TriedOf = BTreeSet<(u32, usize, usize, u32)>;

fn try_once(plan: &mut Planner, tried: &mut TriedOf, caller: usize, about: usize, call: Call) {
    if tried.insert((call.kind(), caller, about, plan.code(&call))) {
        plan.make(call);
    }
}
