//! For a domain: those who have no right on it do to it whatever a call can ask for,
//! while it looks on. All that they do is purged for it.

use reference::influences;
use reference::table::{domains, endpoints, owner, right};

use super::planner::{
    grant, look_up, my_endpoints, my_rights, receive, remove, revoke, send, single_rights, Planned,
    Planner,
};

/// The list for a domain; none where everyone else has a right on it for good.
/// Who can gives up its rights on the domain first; who keeps one says nothing more.
pub fn strangers(table: &[u32], domain: usize) -> Vec<Planned> {
    let what = format!("those without a right on domain {domain}");
    let mut plan = Planner::new(&what, table);
    let others = (0..domains(table)).filter(|&other| other != domain);
    for other in others.clone() {
        give_up(&mut plan, other, domain);
    }
    let table = plan.table();
    let strangers: Vec<usize> = others.filter(|&u| !influences(table, u, domain)).collect();
    if strangers.is_empty() {
        return Vec::new();
    }
    look_on(&mut plan, domain);
    for stranger in strangers {
        meddle(&mut plan, stranger, domain);
        look_on(&mut plan, domain);
    }
    plan.lists()
}

fn give_up(plan: &mut Planner, holder: usize, target: usize) {
    for set in 1..=right::ALL {
        let call = remove(holder, target, set);
        if plan.alters(&call) {
            plan.make(call);
        }
    }
}

/// The domain fills its queues, takes a message out of each and asks for all it has.
fn look_on(plan: &mut Planner, domain: usize) {
    for endpoint in owned(plan, domain) {
        for _ in 0..2 {
            let message = plan.message();
            plan.make(send(domain, endpoint, message));
        }
        plan.make(receive(domain, endpoint));
    }
    plan.make(my_rights(domain));
    plan.make(my_endpoints(domain));
}

fn owned(plan: &Planner, domain: usize) -> Vec<usize> {
    let table = plan.table();
    let all = 0..endpoints(table);
    all.filter(|&e| owner(table, e) == domain).collect()
}

/// Whatever a stranger can ask for that is about the domain, and its own calls.
fn meddle(plan: &mut Planner, stranger: usize, domain: usize) {
    for endpoint in owned(plan, domain) {
        let message = plan.message();
        plan.make(send(stranger, endpoint, message));
        plan.make(receive(stranger, endpoint));
    }
    for other in 0..domains(plan.table()) {
        for set in single_rights() {
            plan.make(grant(stranger, domain, other, set));
            plan.make(grant(stranger, other, domain, set));
            plan.make(revoke(stranger, domain, other, set));
            plan.make(revoke(stranger, other, domain, set));
        }
    }
    for set in 1..=right::ALL {
        plan.make(remove(stranger, domain, set));
    }
    for endpoint in owned(plan, stranger) {
        let message = plan.message();
        plan.make(send(stranger, endpoint, message));
        plan.make(receive(stranger, endpoint));
    }
    plan.make(look_up(stranger, 1));
    plan.make(my_rights(stranger));
    plan.make(my_endpoints(stranger));
}
