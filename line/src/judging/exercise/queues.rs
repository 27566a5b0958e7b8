//! Each queue filled, overfilled and drained in order, by each sender that may; and
//! lost counts at their top.

use reference::calls::Call;
use reference::table::{
    capacity, domains, endpoint_place, endpoints, owner, waiting, LOST, LOST_PLACE,
};
use reference::words::{word, CONTENT_MAX};

use super::planner::{my_endpoints, receive, send, Planned, Planner};

/// Each queue by each sender that may send to it now and may not by `earlier`, a table
/// that was gone through before.
pub fn queues(what: &str, table: &[u32], earlier: Option<&[u32]>) -> Vec<Planned> {
    let mut plan = Planner::new(what, table);
    let earlier = earlier.map(|table| Planner::new(what, table));
    for endpoint in 0..endpoints(table) {
        let may = |plan: &Planner, sender| plan.code(&send(sender, endpoint, 0)) == 0;
        let before = |sender| earlier.as_ref().is_some_and(|plan| may(plan, sender));
        let all = 0..domains(table);
        let senders: Vec<usize> = all.filter(|&s| may(&plan, s) && !before(s)).collect();
        for &sender in &senders {
            go_through(&mut plan, endpoint, &[sender]);
        }
        if senders.len() > 1 {
            go_through(&mut plan, endpoint, &senders);
        }
    }
    plan.lists()
}

/// Each queue drained, filled and overfilled, one message taken and one put last, then
/// drained; the senders take turns. Those who may not try in between.
fn go_through(plan: &mut Planner, endpoint: usize, senders: &[usize]) {
    drain(plan, endpoint);
    let mut turns = senders.iter().cycle();
    let mut next = || *turns.next().expect("there is a sender");
    for _ in 0..capacity(plan.table(), endpoint) + 1 {
        put(plan, next(), endpoint);
    }
    outsiders(plan, endpoint);
    plan.make(receive(owner(plan.table(), endpoint), endpoint));
    put(plan, next(), endpoint);
    put(plan, next(), endpoint);
    drain(plan, endpoint);
    outsiders(plan, endpoint);
}

fn put(plan: &mut Planner, sender: usize, endpoint: usize) {
    let message = plan.message();
    plan.make(send(sender, endpoint, message));
}

/// The owner receives until nothing waits, and once more.
fn drain(plan: &mut Planner, endpoint: usize) {
    let owner = owner(plan.table(), endpoint);
    for _ in 0..waiting(plan.table(), endpoint) + 1 {
        plan.make(receive(owner, endpoint));
    }
    plan.make(my_endpoints(owner));
}

/// One that may not send tries to, and one that may not receive, where there is one.
fn outsiders(plan: &mut Planner, endpoint: usize) {
    let (message, owner) = (plan.message(), owner(plan.table(), endpoint));
    let others = (0..domains(plan.table())).filter(|&caller| caller != owner);
    let refused = |call: &Call| plan.code(call) != 0;
    let sends = (0..domains(plan.table())).map(|caller| send(caller, endpoint, message));
    let receives = others.map(|caller| receive(caller, endpoint));
    let (mut sends, mut receives) = (sends, receives);
    let tries = [sends.find(refused), receives.find(refused)];
    for call in tries.into_iter().flatten() {
        plan.make(call);
    }
}

/// The table with every lost count one below its top.
pub fn one_below_the_top(table: &[u32]) -> Vec<u32> {
    let mut copy = table.to_vec();
    for endpoint in 0..endpoints(table) {
        copy[endpoint_place(table, endpoint) + LOST_PLACE] = word(LOST, CONTENT_MAX - 1);
    }
    copy
}
