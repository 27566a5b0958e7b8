//! The call-by-call machine (document 01, "The striking rule", with the rows of
//! "The calls" and the places 10 to 23 of "Where each number is checked"), with
//! what document 02 has altered.
//!
//! Its state is the table's words; it is fed one call at a time. First it is
//! decided whether the call is refused, by reading alone; then the row of a call
//! that isn't refused is done.

use crate::calls::{Call, GRANT, LOOK_UP, MY_ENDPOINTS, MY_RIGHTS, RECEIVE, REMOVE, REVOKE, SEND};
use crate::queue;
use crate::table::{
    domains, endpoint_words_mut, endpoints, name, owner, right, rights, rights_place, waiting,
    RIGHTS,
};
use crate::words::word;

/// Two data words of an answer where nothing is named.
const NO_DATA: [u32; 2] = [0, 0];

/// One step of the machine on an accepted table: the table is left as the call
/// makes it, and the call's three answer words are returned.
pub fn step(table: &mut [u32], call: &Call) -> [u32; 3] {
    match refusal(table, call) {
        Some(code) => answer(call, code, NO_DATA),
        None => {
            let data = perform(table, call);
            answer(call, 0, data)
        }
    }
}

/// Kind, caller as found and code, then the two data words. A stray's caller is 0.
fn answer(call: &Call, code: u32, data: [u32; 2]) -> [u32; 3] {
    let caller = call.caller().unwrap_or(0);
    [word(call.kind(), (caller << 22) | code), data[0], data[1]]
}

/// The number of the first place from 10 on that fails, if one does.
pub fn refusal(table: &[u32], call: &Call) -> Option<u32> {
    if call.is_stray() {
        return Some(10);
    }
    if call.is_unknown() {
        return Some(11);
    }
    if caller(call) >= domains(table) {
        return Some(12);
    }
    if an_unused_field_is_set(call) {
        return Some(13);
    }
    if takes_second_word(call) && call.second.is_none() {
        return Some(14);
    }
    refusal_of_kind(table, call)
}

/// The places from 15 on, by the call's kind.
fn refusal_of_kind(table: &[u32], call: &Call) -> Option<u32> {
    match call.kind() {
        LOOK_UP => look_up_refusal(table, call),
        SEND => send_refusal(table, call),
        RECEIVE => receive_refusal(table, call),
        GRANT => grant_refusal(table, call),
        REMOVE => remove_refusal(table, call),
        REVOKE => revoke_refusal(table, call),
        _ => None,
    }
}

/// The caller of a call that isn't a stray.
fn caller(call: &Call) -> usize {
    call.caller().unwrap_or(0) as usize
}

pub(crate) fn an_unused_field_is_set(call: &Call) -> bool {
    let (a, b, c) = (call.a() != 0, call.b() != 0, call.c() != 0);
    match call.kind() {
        LOOK_UP | MY_ENDPOINTS | MY_RIGHTS => a || b || c,
        SEND | RECEIVE => a || c,
        REMOVE => b,
        _ => false,
    }
}

pub(crate) fn takes_second_word(call: &Call) -> bool {
    matches!(call.kind(), LOOK_UP | SEND)
}

fn look_up_refusal(table: &[u32], call: &Call) -> Option<u32> {
    if endpoint_named(table, call).is_none() {
        return Some(15);
    }
    None
}

/// The endpoint whose name the call's second word gives. Names are never equal.
fn endpoint_named(table: &[u32], call: &Call) -> Option<usize> {
    (0..endpoints(table)).find(|&e| Some(name(table, e)) == call.second_content())
}

/// Whoever sends needs SEND on the owner, the owner too (document 02, request (f)).
fn send_refusal(table: &[u32], call: &Call) -> Option<u32> {
    let endpoint = call.b() as usize;
    if endpoint >= endpoints(table) {
        return Some(16);
    }
    let to = owner(table, endpoint);
    if rights(table, caller(call), to) & right::SEND == 0 {
        return Some(17);
    }
    None
}

fn receive_refusal(table: &[u32], call: &Call) -> Option<u32> {
    let endpoint = call.b() as usize;
    if endpoint >= endpoints(table) {
        return Some(16);
    }
    if owner(table, endpoint) != caller(call) {
        return Some(18);
    }
    if waiting(table, endpoint) == 0 {
        return Some(19);
    }
    None
}

fn grant_refusal(table: &[u32], call: &Call) -> Option<u32> {
    let (target, recipient) = (call.a() as usize, call.b() as usize);
    if target >= domains(table) || recipient >= domains(table) {
        return Some(20);
    }
    if !names_a_set(call) {
        return Some(21);
    }
    let needed = right::GRANT | call.c();
    if rights(table, caller(call), target) & needed != needed {
        return Some(22);
    }
    if !reaches(table, call, recipient) {
        return Some(23);
    }
    None
}

/// Whether the caller is the domain named or has any right on it.
fn reaches(table: &[u32], call: &Call, named: usize) -> bool {
    caller(call) == named || rights(table, caller(call), named) != 0
}

/// Whether C is a set of rights and not the empty one.
fn names_a_set(call: &Call) -> bool {
    (1..=right::ALL).contains(&call.c())
}

/// REMOVE and every right of the set must be held (document 02, request (b)).
fn remove_refusal(table: &[u32], call: &Call) -> Option<u32> {
    let target = call.a() as usize;
    if target >= domains(table) {
        return Some(20);
    }
    if !names_a_set(call) {
        return Some(21);
    }
    let needed = right::REMOVE | call.c();
    if rights(table, caller(call), target) & needed != needed {
        return Some(22);
    }
    None
}

/// What the holder has isn't looked at: the answer must not show it (document 02,
/// request (i)).
fn revoke_refusal(table: &[u32], call: &Call) -> Option<u32> {
    let (target, holder) = (call.a() as usize, call.b() as usize);
    if target >= domains(table) || holder >= domains(table) {
        return Some(20);
    }
    if !names_a_set(call) {
        return Some(21);
    }
    if rights(table, caller(call), target) & right::REVOKE == 0 {
        return Some(22);
    }
    if !reaches(table, call, holder) {
        return Some(23);
    }
    None
}

/// Does the row of a call that isn't refused, and gives its data words.
fn perform(table: &mut [u32], call: &Call) -> [u32; 2] {
    match call.kind() {
        LOOK_UP => look_up(table, call),
        SEND => send(table, call),
        RECEIVE => receive(table, call),
        MY_ENDPOINTS => my_endpoints(table, call),
        MY_RIGHTS => my_rights(table, call),
        GRANT => grant(table, call),
        REMOVE => remove(table, call),
        REVOKE => revoke(table, call),
        _ => NO_DATA,
    }
}

fn look_up(table: &[u32], call: &Call) -> [u32; 2] {
    let endpoint = endpoint_named(table, call).expect("the name was found");
    [endpoint as u32, 0]
}

/// A send answers the same whether or not there was space.
fn send(table: &mut [u32], call: &Call) -> [u32; 2] {
    let message = call.second_content().expect("a send has a second word");
    queue::send(endpoint_words_mut(table, call.b() as usize), message);
    NO_DATA
}

fn receive(table: &mut [u32], call: &Call) -> [u32; 2] {
    queue::receive(endpoint_words_mut(table, call.b() as usize)).expect("a message waits")
}

fn my_endpoints(table: &[u32], call: &Call) -> [u32; 2] {
    let mut owned = 0;
    for endpoint in 0..endpoints(table) {
        if owner(table, endpoint) == caller(call) {
            owned |= 1 << endpoint;
        }
    }
    [owned, 0]
}

/// Four bits for each target, eight targets in each data word.
fn my_rights(table: &[u32], call: &Call) -> [u32; 2] {
    let mut data = NO_DATA;
    for target in 0..domains(table) {
        data[target / 8] |= rights(table, caller(call), target) << (4 * (target % 8));
    }
    data
}

fn grant(table: &mut [u32], call: &Call) -> [u32; 2] {
    let (target, recipient) = (call.a() as usize, call.b() as usize);
    let set = rights(table, recipient, target) | call.c();
    table[rights_place(table, recipient, target)] = word(RIGHTS, set);
    NO_DATA
}

/// Clears all rights of the set together.
fn remove(table: &mut [u32], call: &Call) -> [u32; 2] {
    let target = call.a() as usize;
    let set = rights(table, caller(call), target) & !call.c();
    table[rights_place(table, caller(call), target)] = word(RIGHTS, set);
    NO_DATA
}

/// Clears the rights of the set from the holder's on the target, those it has.
fn revoke(table: &mut [u32], call: &Call) -> [u32; 2] {
    let (target, holder) = (call.a() as usize, call.b() as usize);
    let set = rights(table, holder, target) & !call.c();
    table[rights_place(table, holder, target)] = word(RIGHTS, set);
    NO_DATA
}
