//! Every kind of word, every field of it bit by bit, and every number that a call can
//! name at its edges: the first and the last one that the table has, the first one
//! that it has not, and the largest one that the field holds.

use reference::calls::{Call, LIST_WORDS_MAX, STRAY};
use reference::generate::call_word;
use reference::table::{domains, endpoints, name, right};
use reference::words::{content, word, CONTENT_MAX};

use super::planner::{
    grant, look_up, my_endpoints, my_rights, receive, remove, revoke, send, single_rights, Planned,
    Planner, CALLER_MAX,
};
use crate::judging::variants::case_of;
use crate::kernels::lent::OUTSIDE;
use crate::text::input::Input;

/// The bits of a first word below its caller's, which are the fields A, B and C.
const FIELD_BITS: u32 = 22;

/// The largest numbers that the fields A, and B and C hold.
const A_MAX: usize = 63;
const B_MAX: usize = 255;

/// All kinds, with no bit of the fields set and with each alone, by a domain and by
/// nobody, with a second word and without.
pub fn kinds(table: &[u32]) -> Vec<Planned> {
    let mut plan = Planner::new("every kind and every bit of its fields", table);
    // A stray at the very beginning, where no word is before.
    plan.make(reference::cut(&[word(STRAY, 0)])[0]);
    for kind in 0..=STRAY {
        let bits = (0..FIELD_BITS).map(|bit| 1 << bit);
        for bits in [0].into_iter().chain(bits) {
            for caller in [0, domains(table)] {
                with_and_without_second(&mut plan, call_word(kind, caller, 0, 0, bits));
            }
        }
        for caller in edges(domains(table), CALLER_MAX) {
            with_and_without_second(&mut plan, call_word(kind, caller, 0, 0, 0));
        }
    }
    // A lone first word at the very end, where no word follows.
    plan.make(lone(send(0, 0, 0)));
    plan.lists()
}

/// As many calls as a list can have: everyone asks for all that it has, in turn.
pub fn most_calls(table: &[u32]) -> Planned {
    let n = domains(table);
    let asked = (0..LIST_WORDS_MAX).map(|number| match number / n % 2 {
        0 => my_rights(number % n).first,
        _ => my_endpoints(number % n).first,
    });
    let input = Input {
        table: table.to_vec(),
        list: asked.collect(),
    };
    Planned {
        what: "as many calls as there can be".to_string(),
        case: case_of(&input),
    }
}

fn lone(call: Call) -> Call {
    Call {
        second: None,
        ..call
    }
}

/// A first word with a word of kind 15 after it, which is a call's second word or a
/// stray, and the first word alone.
fn with_and_without_second(plan: &mut Planner, first: u32) {
    let second = word(STRAY, plan.message());
    for call in reference::cut(&[first, second]) {
        plan.make(call);
    }
    plan.make(reference::cut(&[first])[0]);
}

/// 0, the last number below `bound`, `bound` and the largest, each once.
fn edges(bound: usize, largest: usize) -> Vec<usize> {
    let mut edges = vec![0, bound.saturating_sub(1), bound, largest];
    edges.dedup();
    edges
}

/// Each name looked up by each domain, and names that aren't there.
pub fn names(table: &[u32]) -> Vec<Planned> {
    let mut plan = Planner::new("every name", table);
    let there: Vec<u32> = (0..endpoints(table)).map(|e| name(table, e)).collect();
    for caller in 0..domains(table) {
        for &name in &there {
            plan.make(look_up(caller, name));
        }
        plan.make(my_endpoints(caller));
        // The last of these is after the table, where no endpoint is.
        for other in [0, CONTENT_MAX, content(OUTSIDE)] {
            plan.make(look_up(caller, other));
        }
    }
    for (e, &name) in there.iter().enumerate() {
        let caller = e % domains(table);
        for other in [name ^ 1, name ^ 1 << 27, (name + 1) & CONTENT_MAX] {
            plan.make(look_up(caller, other));
        }
    }
    plan.lists()
}

/// Each domain with each endpoint and the numbers past the last one; and with
/// domains and sets of rights at their edges.
pub fn numbers(table: &[u32]) -> Vec<Planned> {
    let mut plan = Planner::new("every number at its edges", table);
    let past = edges(endpoints(table), B_MAX);
    for caller in 0..domains(table) {
        for endpoint in (0..endpoints(table)).chain(past.clone()) {
            let message = plan.message();
            plan.make(receive(caller, endpoint));
            plan.make(send(caller, endpoint, message));
        }
        domains_and_sets(&mut plan, caller);
        plan.make(my_rights(caller));
    }
    plan.lists()
}

fn domains_and_sets(plan: &mut Planner, caller: usize) {
    let n = domains(plan.table());
    let beyond = [right::ALL + 1, 128, 255];
    let sets = [0, right::ALL].into_iter().chain(single_rights());
    for target in edges(n, A_MAX) {
        for recipient in edges(n, B_MAX) {
            for set in sets.clone().chain(beyond) {
                plan.make(grant(caller, target, recipient, set));
                plan.make(revoke(caller, target, recipient, set));
            }
        }
        for set in (0..=right::ALL).chain(beyond) {
            plan.make(remove(caller, target, set));
        }
    }
}
