//! Lists of calls that are done, run as far as each of their calls, so that the holders and
//! every word of the table are compared after every call: on rights that overlap what the
//! calls before gave and took.

use reference::calls::Call;
use reference::generate::Rng;
use reference::machine::{refusal, step};
use reference::table::{domains, endpoints, owner, right};

use super::bits::run_of;
use super::tables::Shape;
use super::{Tables, Take};
use crate::judging::exercise::planner::{grant, my_rights, receive, remove, revoke, send};

/// How many lists there are for a table, of how many calls each, and how often a call is
/// drawn again that would be refused.
const LISTS: usize = 120;
const CALLS: usize = 10;
const DRAWN_AGAIN: usize = 12;

/// The drill: on the line's table, on the family, and on tables of few domains with all
/// rights among them.
pub fn walks(tables: &Tables, take: &mut Take) {
    let rng = &mut Rng::new(75);
    for table in tables.all() {
        for _ in 0..LISTS {
            walk(table, rng, take);
        }
    }
    for n in 1..=5 {
        let table = Shape::new(n, n).with_rights(|_, _| right::ALL).words();
        for _ in 0..4 * LISTS {
            walk(&table, rng, take);
        }
    }
}

/// One list, run after none of its calls, one, two and so on.
fn walk(table: &[u32], rng: &mut Rng, take: &mut Take) {
    let (mut now, mut list) = (table.to_vec(), Vec::new());
    for _ in 0..CALLS {
        let drawn = (0..DRAWN_AGAIN)
            .map(|_| drawn(&now, rng))
            .collect::<Vec<_>>();
        let done = drawn.iter().find(|call| refusal(&now, call).is_none());
        let call = done.unwrap_or(&drawn[0]);
        step(&mut now, call);
        list.extend(call.words());
        run_of(table, list.clone(), take);
    }
}

/// A call by any domain about any others, most of them about rights.
fn drawn(table: &[u32], rng: &mut Rng) -> Call {
    let (n, m) = (domains(table), endpoints(table));
    let (caller, target, other) = (rng.below(n), rng.below(n), rng.below(n));
    let set = rng.between(1, right::ALL as usize) as u32;
    match rng.below(8) {
        0..=2 => grant(caller, target, other, set),
        3 | 4 => revoke(caller, target, other, set),
        5 => remove(caller, target, set),
        6 if m > 0 => send(caller, rng.below(m), rng.word() >> 4),
        7 if m > 0 => {
            let endpoint = rng.below(m);
            receive(owner(table, endpoint), endpoint)
        }
        _ => my_rights(caller),
    }
}
