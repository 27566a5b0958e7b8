//! Rights in every state: a grant, a remove and a revoke of each set, whatever the caller
//! has on the target and on the other domain and the other domain has on the target; with
//! any two or all three of them the same domain. And on as many domains as there can be,
//! each right of each holder on each target, and each caller with each target and each other
//! domain.

use reference::calls::Call;
use reference::table::{right, DOMAINS_MAX};

use super::bits::calls_of;
use super::tables::Shape;
use super::{Tables, Take};
use crate::judging::exercise::planner::{grant, my_rights, remove, revoke, send};

/// Who calls, on whom, and who gets or loses: all different, and each way to be the same.
const PATTERNS: [(usize, usize, usize); 6] = [
    (0, 1, 2),
    (2, 1, 0),
    (1, 1, 2),
    (1, 2, 1),
    (0, 2, 2),
    (1, 1, 1),
];

/// What the caller may have on the other domain.
const TOWARD: [u32; 6] = [
    0,
    right::SEND,
    right::GRANT,
    right::REMOVE,
    right::REVOKE,
    right::ALL,
];

/// The drill.
pub fn rights(_: &Tables, take: &mut Take) {
    for (caller, target, other) in PATTERNS {
        for (has, holds) in (0..256).map(|both| (both >> 4, both & right::ALL)) {
            for toward in toward(has, holds) {
                let shape = Shape::new(3, 1)
                    .give(other, target, holds)
                    .give(caller, other, toward)
                    .give(caller, target, has);
                each_set(&shape, caller, target, other, take);
            }
        }
    }
    for (holder, target) in (0..DOMAINS_MAX).flat_map(|h| (0..DOMAINS_MAX).map(move |t| (h, t))) {
        alone(holder, target, take);
        (0..DOMAINS_MAX).for_each(|caller| three(caller, target, holder, take));
    }
}

/// What the caller has on the other domain: all ways where little else is held, and one of
/// them by turns otherwise.
fn toward(has: u32, holds: u32) -> Vec<u32> {
    match holds {
        0 | right::ALL => TOWARD.to_vec(),
        _ => vec![TOWARD[(has + 5 * holds) as usize % TOWARD.len()]],
    }
}

/// Each set granted, removed and revoked, each alone, and used afterwards.
fn each_set(shape: &Shape, caller: usize, target: usize, other: usize, take: &mut Take) {
    let table = shape.words();
    for set in 1..=right::ALL {
        let calls = [
            grant(caller, target, other, set),
            remove(caller, target, set),
            revoke(caller, target, other, set),
        ];
        for call in calls {
            calls_of(&table, [call], take);
            calls_of(&table, used(call, caller, other, set), take);
        }
    }
}

/// A call, made again, with all that shows what it left: rights asked for, a send, and the
/// same set given on, given up and taken back.
fn used(call: Call, caller: usize, other: usize, set: u32) -> [Call; 9] {
    let target = call.a() as usize;
    [
        call,
        my_rights(other),
        my_rights(caller),
        send(other, 0, set),
        grant(other, target, other, set),
        remove(other, target, set),
        revoke(caller, target, caller, set),
        call,
        my_rights(other),
    ]
}

/// A caller with all rights on a target and on another domain, and nobody else with any:
/// they are given on, taken back in part and given up in part; and the rest is taken back
/// too, which leaves the other domain none.
fn three(caller: usize, target: usize, other: usize, take: &mut Take) {
    let shape = Shape::new(DOMAINS_MAX, 0)
        .give(caller, other, right::ALL)
        .give(caller, target, right::ALL);
    let calls = [
        grant(caller, target, other, right::ALL),
        my_rights(other),
        revoke(caller, target, other, right::SEND | right::GRANT),
        my_rights(other),
        remove(caller, target, right::REMOVE),
        my_rights(caller),
        revoke(caller, target, other, right::ALL),
    ];
    let (table, last) = (shape.words(), calls.len() - 1);
    calls_of(&table, calls[..last].iter().copied(), take);
    calls_of(&table, calls, take);
}

/// One holder with rights on one target of the largest table, and nobody else with any:
/// asked for by both, used, given on to oneself, given up and taken back.
fn alone(holder: usize, target: usize, take: &mut Take) {
    for set in 1..=right::ALL {
        let table = Shape::new(16, 16).give(holder, target, set).words();
        let calls = [
            my_rights(holder),
            my_rights(target),
            send(holder, target, set),
            grant(holder, target, holder, set),
            grant(holder, target, target, set),
            revoke(holder, target, holder, right::SEND),
            remove(holder, target, right::REMOVE),
            my_rights(holder),
            my_rights(target),
        ];
        calls_of(&table, calls, take);
        calls_of(&table, [], take);
    }
}
