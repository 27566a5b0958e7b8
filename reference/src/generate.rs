//! Seeded tables, lists, calls and inputs for property tests and comparisons.
//!
//! Everything follows from the seed alone. The draws are biased so that every
//! code is met, most calls do something, queues fill and empty, and lost counts
//! reach their top. `tests/all/generator.rs` counts that this is so.

mod events;
mod grants;
mod panel;
mod sheet;
mod worn;

use std::collections::BTreeSet;

use crate::calls::{
    cut, GRANT, LIST_WORDS_MAX, LOOK_UP, MY_ENDPOINTS, MY_RIGHTS, RECEIVE, REMOVE, REVOKE, SEND,
    STRAY,
};
use crate::entry::ANSWER_WORDS;
use crate::machine::step;
use crate::queue::Endpoint;
use crate::table::{
    capacity, check_table, domains, endpoint_place, endpoint_words_mut, endpoints, name, owner,
    right, rights, rights_place, waiting, DOMAINS_MAX, ENDPOINTS_MAX, ENDPOINT_WORDS, HEADER, INFO,
    INFO_PLACE, LOST, LOST_PLACE, MESSAGE, NAME, NAME_PLACE, RIGHTS, SLOTS, SLOTS_PLACE,
    TABLE_WORDS_MAX, WAITING, WAITING_PLACE,
};
use crate::words::{content, to_bytes, word, CONTENT_MAX, EMPTY_SLOT};
use crate::writer::{from_columns, to_columns, Value, COLUMNS};

pub use events::{events, Event};
pub use grants::{
    chained_table, influence_case, list_by, potential_case, set_of_domains, InfluenceCase,
    PotentialCase,
};
pub use panel::{lent_panel, panel, panel_case, question, PanelCase};
pub use sheet::{totals_input, Limits};
pub use worn::{
    break_few, but_for_the_frame, damage_frame, flip_one_bit, overwrite_many, overwrite_runs,
    repair_case, worn_table, RepairCase,
};

/// A small random generator (splitmix64).
#[derive(Debug, Clone)]
pub struct Rng {
    state: u64,
}

impl Rng {
    pub fn new(seed: u64) -> Rng {
        Rng { state: seed }
    }

    /// The next 64 bits.
    pub fn draw(&mut self) -> u64 {
        self.state = self.state.wrapping_add(0x9E37_79B9_7F4A_7C15);
        let mut bits = self.state;
        bits = (bits ^ (bits >> 30)).wrapping_mul(0xBF58_476D_1CE4_E5B9);
        bits = (bits ^ (bits >> 27)).wrapping_mul(0x94D0_49BB_1331_11EB);
        bits ^ (bits >> 31)
    }

    /// A whole word, every bit drawn.
    pub fn word(&mut self) -> u32 {
        (self.draw() >> 32) as u32
    }

    /// A number below `bound`, which isn't 0.
    pub fn below(&mut self, bound: usize) -> usize {
        (self.draw() % bound as u64) as usize
    }

    /// A number from `low` to `high`, both included.
    pub fn between(&mut self, low: usize, high: usize) -> usize {
        low + self.below(high - low + 1)
    }

    /// The same, with the two ends drawn more often.
    pub fn size(&mut self, low: usize, high: usize) -> usize {
        match self.below(16) {
            0 => low,
            1 | 2 => high,
            _ => self.between(low, high),
        }
    }

    /// True `times` times out of `of`.
    pub fn chance(&mut self, times: usize, of: usize) -> bool {
        self.below(of) < times
    }

    /// One of the given, which aren't none.
    pub fn pick<T: Copy>(&mut self, from: &[T]) -> T {
        from[self.below(from.len())]
    }

    /// The numbers below `bound` in an order that is drawn.
    pub fn order(&mut self, bound: usize) -> Vec<usize> {
        let mut order: Vec<usize> = (0..bound).collect();
        for place in (1..bound).rev() {
            order.swap(place, self.below(place + 1));
        }
        order
    }
}

// Tables.

/// An accepted table of 1 to `max_n` domains and 0 to `max_m` endpoints.
pub fn table(rng: &mut Rng, max_n: usize, max_m: usize) -> Vec<u32> {
    let n = rng.size(1, max_n.clamp(1, DOMAINS_MAX));
    let m = rng.size(0, max_m.min(ENDPOINTS_MAX));
    table_of(rng, n, m)
}

/// An accepted table of just n domains and m endpoints.
pub fn table_of(rng: &mut Rng, n: usize, m: usize) -> Vec<u32> {
    let mut words = vec![word(HEADER, ((n << 8) | m) as u32)];
    let density = rng.pick(&[1, 2, 4, 8]);
    let own_sends = rng.pick(&[2, 8, 8, 8]);
    for place in 0..n * n {
        let mut set = if rng.chance(density, 8) {
            rights_set(rng)
        } else {
            0
        };
        // Mostly with SEND on oneself, so that owners can fill their queues.
        if place % (n + 1) == 0 && rng.chance(own_sends, 8) {
            set |= right::SEND;
        }
        words.push(word(RIGHTS, set));
    }
    for name in names(rng, m) {
        words.extend(endpoint(rng, n, name));
    }
    words
}

/// An accepted table whose domains stand on up to three sides: nobody has a right on
/// a domain of another side.
pub fn walled_table(rng: &mut Rng, max_n: usize, max_m: usize) -> Vec<u32> {
    let mut words = table(rng, max_n, max_m);
    let n = domains(&words);
    let sides: Vec<usize> = (0..n).map(|_| rng.below(3)).collect();
    for place in 0..n * n {
        if sides[place / n] != sides[place % n] {
            words[1 + place] = word(RIGHTS, 0);
        }
    }
    words
}

/// A set of rights, all four more often than the others.
fn rights_set(rng: &mut Rng) -> u32 {
    if rng.chance(1, 3) {
        right::ALL
    } else {
        any_set(rng)
    }
}

/// Any set of rights but the empty one.
fn any_set(rng: &mut Rng) -> u32 {
    rng.between(1, right::ALL as usize) as u32
}

/// m names, none of them 0 and no two equal.
fn names(rng: &mut Rng, m: usize) -> Vec<u32> {
    let mut names: Vec<u32> = Vec::new();
    while names.len() < m {
        let name = match rng.below(4) {
            0 => CONTENT_MAX - rng.below(ENDPOINTS_MAX) as u32,
            1 => content(rng.word()).max(1),
            _ => rng.between(1, 2 * ENDPOINTS_MAX) as u32,
        };
        if !names.contains(&name) {
            names.push(name);
        }
    }
    names
}

/// The twelve words of an endpoint in a table of n domains.
fn endpoint(rng: &mut Rng, n: usize, name: u32) -> Vec<u32> {
    let owner = rng.below(n);
    let capacity = rng.pick(&[1, 1, 2, 2, 3, 4, 5, 6, 7, 8, 8]);
    let info = word(INFO, ((owner << 8) | capacity) as u32);
    let mut words = vec![word(NAME, name), info];
    words.extend(queue_words(rng, capacity));
    words
}

/// The waiting, lost and message words of an endpoint with a capacity.
fn queue_words(rng: &mut Rng, capacity: usize) -> Vec<u32> {
    let waiting = match rng.below(3) {
        0 => 0,
        1 => capacity,
        _ => rng.between(0, capacity),
    };
    let mut words = vec![word(WAITING, waiting as u32), word(LOST, lost_count(rng))];
    for slot in 0..SLOTS {
        words.push(if slot < waiting {
            word(MESSAGE, message(rng))
        } else {
            EMPTY_SLOT
        });
    }
    words
}

/// Any twelve words, of which an accepted table may have none: the waiting count
/// and the capacity are mostly near those that count, all else is drawn.
pub fn any_endpoint(rng: &mut Rng) -> Endpoint {
    let mut words = [0; ENDPOINT_WORDS];
    words.fill_with(|| wild_word(rng));
    if rng.chance(7, 8) {
        words[INFO_PLACE] = (words[INFO_PLACE] & !255) | rng.between(0, SLOTS + 2) as u32;
    }
    if rng.chance(7, 8) {
        words[WAITING_PLACE] = word(WAITING, rng.between(0, SLOTS + 1) as u32);
    }
    if rng.chance(1, 2) {
        words[LOST_PLACE] = word(LOST, lost_count(rng));
    }
    words
}

/// A lost count, often at its top or just below.
fn lost_count(rng: &mut Rng) -> u32 {
    match rng.below(8) {
        0 | 1 => CONTENT_MAX,
        2 => CONTENT_MAX - 1,
        3 => CONTENT_MAX - 2,
        4 => content(rng.word()),
        _ => 0,
    }
}

/// A message, sometimes 0 or the largest.
fn message(rng: &mut Rng) -> u32 {
    match rng.below(8) {
        0 => 0,
        1 => CONTENT_MAX,
        2 => content(rng.word()),
        _ => rng.below(256) as u32,
    }
}

/// An accepted table with the unchanging parts of the given one. The rights that
/// members hold or that are held on them stay, and so do their queues and lost
/// counts; all else is drawn anew.
pub fn redrawn_but_for(rng: &mut Rng, table: &[u32], members: &BTreeSet<usize>) -> Vec<u32> {
    let mut other = table.to_vec();
    for holder in (0..domains(table)).filter(|d| !members.contains(d)) {
        for target in (0..domains(table)).filter(|d| !members.contains(d)) {
            redraw_rights(rng, &mut other, holder, target);
        }
    }
    for e in (0..endpoints(table)).filter(|&e| !members.contains(&owner(table, e))) {
        redraw_queue(rng, &mut other, e);
    }
    other
}

/// An accepted table that differs from the given one in a few words, whosever they
/// are: rights words, or the queue and lost count of an endpoint.
pub fn altered(rng: &mut Rng, table: &[u32]) -> Vec<u32> {
    let mut other = table.to_vec();
    for _ in 0..rng.between(1, 4) {
        let (holder, target) = (rng.below(domains(table)), rng.below(domains(table)));
        if endpoints(table) == 0 || rng.chance(1, 2) {
            redraw_rights(rng, &mut other, holder, target);
        } else {
            let e = rng.below(endpoints(table));
            redraw_queue(rng, &mut other, e);
        }
    }
    other
}

fn redraw_rights(rng: &mut Rng, table: &mut [u32], holder: usize, target: usize) {
    let set = if rng.chance(1, 2) { rights_set(rng) } else { 0 };
    table[rights_place(table, holder, target)] = word(RIGHTS, set);
}

fn redraw_queue(rng: &mut Rng, table: &mut [u32], e: usize) {
    let queue = queue_words(rng, capacity(table, e));
    endpoint_words_mut(table, e)[WAITING_PLACE..].copy_from_slice(&queue);
}

/// A table that is refused, and the code that refuses it, 2 to 5. Often more
/// than one thing is wrong with it.
pub fn damaged_table(rng: &mut Rng, max_n: usize, max_m: usize) -> (Vec<u32>, u32) {
    let mut words = table(rng, max_n, max_m);
    let lowest = match rng.between(2, 5) {
        5 if endpoints(&words) == 0 => 4,
        code => code,
    };
    for code in (lowest..=5).rev() {
        if code == lowest || rng.chance(1, 4) {
            damage(rng, &mut words, code);
        }
    }
    (words, lowest as u32)
}

fn damage(rng: &mut Rng, table: &mut Vec<u32>, code: usize) {
    match code {
        2 => damage_header(rng, table),
        3 => damage_length(rng, table),
        4 => damage_rights(rng, table),
        _ => damage_endpoint(rng, table),
    }
}

fn damage_header(rng: &mut Rng, table: &mut Vec<u32>) {
    let (n, m) = (domains(table) as u32, endpoints(table) as u32);
    table[0] = match rng.below(6) {
        0 => return table.clear(),
        1 => other_kind(rng, table[0]),
        2 => table[0] | (1 << rng.between(16, 27)),
        3 => word(HEADER, m),
        4 => word(HEADER, ((rng.size(17, 255) as u32) << 8) | m),
        _ => word(HEADER, (n << 8) | rng.size(33, 255) as u32),
    };
}

fn damage_length(rng: &mut Rng, table: &mut Vec<u32>) {
    match rng.below(4) {
        0 => table.push(EMPTY_SLOT),
        1 => table.extend(vec![EMPTY_SLOT; rng.between(1, 12)]),
        2 => table.truncate(rng.between(1, table.len() - 1)),
        _ => table.truncate(table.len() - 1),
    }
}

fn damage_rights(rng: &mut Rng, table: &mut [u32]) {
    let place = 1 + rng.below(domains(table) * domains(table));
    table[place] = if rng.chance(1, 2) {
        other_kind(rng, table[place])
    } else {
        table[place] | (1 << rng.size(4, 27))
    };
}

/// Breaks one word of one endpoint, where there is one.
fn damage_endpoint(rng: &mut Rng, table: &mut [u32]) {
    if endpoints(table) == 0 {
        return;
    }
    let e = rng.below(endpoints(table));
    let place = endpoint_place(table, e);
    let (at, content) = match rng.below(7) {
        0 => (NAME_PLACE, bad_name(rng, table, e)),
        1 => (INFO_PLACE, bad_info(rng, table, e)),
        2 => (WAITING_PLACE, bad_waiting(rng, table, e)),
        3 => (LOST_PLACE, None),
        _ => bad_slot(rng, table, e),
    };
    let old = table[place + at];
    table[place + at] = match content {
        Some(content) if rng.chance(3, 4) => word(old >> 28, content),
        _ => other_kind(rng, old),
    };
}

/// The name 0, or that of another endpoint.
fn bad_name(rng: &mut Rng, table: &[u32], e: usize) -> Option<u32> {
    let other = rng.below(endpoints(table));
    Some(if other == e { 0 } else { name(table, other) })
}

fn bad_info(rng: &mut Rng, table: &[u32], e: usize) -> Option<u32> {
    let (owner, capacity) = (owner(table, e), capacity(table, e));
    Some(match rng.below(4) {
        0 => (owner << 8) as u32,
        1 => ((owner << 8) | rng.size(9, 255)) as u32,
        2 => ((rng.size(domains(table), 255) << 8) | capacity) as u32,
        _ => (((owner << 8) | capacity) | (1 << rng.between(16, 27))) as u32,
    })
}

/// A waiting count above the capacity.
fn bad_waiting(rng: &mut Rng, table: &[u32], e: usize) -> Option<u32> {
    Some(match rng.below(2) {
        0 => capacity(table, e) as u32 + 1,
        _ => rng.size(9, CONTENT_MAX as usize) as u32,
    })
}

/// A message past the waiting count, where there is a slot past it.
fn bad_slot(rng: &mut Rng, table: &[u32], e: usize) -> (usize, Option<u32>) {
    if waiting(table, e) == SLOTS {
        return (SLOTS_PLACE + rng.below(SLOTS), None);
    }
    let slot = rng.size(waiting(table, e), SLOTS - 1);
    (SLOTS_PLACE + slot, Some(1 << rng.below(28)))
}

/// The same word with another kind.
fn other_kind(rng: &mut Rng, word: u32) -> u32 {
    word ^ ((rng.between(1, 15) as u32) << 28)
}

// Calls and lists.

/// The first word of a call from its fields, each within its bits.
pub fn call_word(kind: u32, caller: usize, a: usize, b: usize, c: u32) -> u32 {
    (kind << 28) | ((caller << 22) as u32) | ((a << 16) as u32) | ((b << 8) as u32) | c
}

/// A list of 0 to `max_words` words for a table. On an accepted table most calls
/// do something; the table that they leave is followed along.
pub fn list(rng: &mut Rng, table: &[u32], max_words: usize) -> Vec<u32> {
    let wanted = rng.size(0, max_words);
    if check_table(table) != 0 {
        return (0..wanted).map(|_| wild_word(rng)).collect();
    }
    let mut now = table.to_vec();
    let mut list = Vec::new();
    while list.len() < wanted {
        let words = call_words(rng, &now);
        let times = if rng.chance(1, 8) {
            rng.between(2, 9)
        } else {
            1
        };
        for call in cut(&words.repeat(times)) {
            step(&mut now, &call);
            list.extend(call.words());
        }
    }
    list.truncate(wanted);
    list
}

/// The words of one call for an accepted table, mostly one that isn't refused.
pub fn call_words(rng: &mut Rng, table: &[u32]) -> Vec<u32> {
    match rng.below(32) {
        0 => vec![wild_word(rng)],
        1 => vec![word(STRAY, content(rng.word()))],
        2 => vec![unknown_word(rng, table)],
        3..=6 => slipped_call(rng, table),
        _ => sensible_call(rng, table),
    }
}

/// A word of which every bit is drawn, or one with few bits set.
fn wild_word(rng: &mut Rng) -> u32 {
    let word = rng.word();
    if rng.chance(1, 2) {
        word
    } else {
        (word & rng.word() & rng.word()) | (word & 0xF000_0000)
    }
}

fn unknown_word(rng: &mut Rng, table: &[u32]) -> u32 {
    let kind = rng.pick(&[0, 9, 10, 11, 12, 13, 14]);
    call_word(kind, rng.below(domains(table) + 1), 0, 0, 0)
}

/// A sensible call with one thing about it altered.
fn slipped_call(rng: &mut Rng, table: &[u32]) -> Vec<u32> {
    let mut words = sensible_call(rng, table);
    let (n, m) = (domains(table), endpoints(table));
    let first = words[0];
    match rng.below(6) {
        0 => words[0] = (first & !(63 << 22)) | ((rng.size(n, 63) as u32) << 22),
        1 => words[0] = (first & !(63 << 16)) | ((rng.size(0, n) as u32) << 16),
        2 => words[0] = (first & !(255 << 8)) | ((rng.pick(&[0, 1, n, m, 255]) as u32) << 8),
        3 => words[0] = (first & !255) | rng.size(0, 255) as u32,
        4 => words.truncate(1),
        _ => words.push(word(STRAY, message(rng))),
    }
    words
}

/// A call by some domain that is seldom refused.
fn sensible_call(rng: &mut Rng, table: &[u32]) -> Vec<u32> {
    let anyone = rng.below(domains(table));
    let kinds = [2, 2, 2, 2, 2, 3, 3, 3, 6, 6, 6, 6, 7, 7, 8, 8, 1, 4, 5, 5];
    match rng.pick(&kinds) {
        LOOK_UP => look_up_words(rng, table, anyone),
        SEND => send_words(rng, table),
        RECEIVE => vec![receive_word(rng, table)],
        GRANT => vec![grant_word(rng, table)],
        REMOVE => vec![remove_word(rng, table)],
        REVOKE => vec![revoke_word(rng, table)],
        MY_ENDPOINTS => vec![call_word(MY_ENDPOINTS, anyone, 0, 0, 0)],
        _ => vec![call_word(MY_RIGHTS, anyone, 0, 0, 0)],
    }
}

/// Mostly one of the numbers below `bound` that are suitable; now and then, or
/// where none is, any of them; 0 where there is no number below `bound`.
fn mostly(rng: &mut Rng, bound: usize, suitable: impl Fn(usize) -> bool) -> usize {
    let suited: Vec<usize> = (0..bound).filter(|&number| suitable(number)).collect();
    if bound == 0 {
        0
    } else if suited.is_empty() || rng.chance(1, 10) {
        rng.below(bound)
    } else {
        rng.pick(&suited)
    }
}

fn look_up_words(rng: &mut Rng, table: &[u32], caller: usize) -> Vec<u32> {
    let name = if endpoints(table) == 0 || rng.chance(1, 4) {
        rng.below(2 * ENDPOINTS_MAX) as u32
    } else {
        name(table, rng.below(endpoints(table)))
    };
    vec![call_word(LOOK_UP, caller, 0, 0, 0), word(STRAY, name)]
}

fn send_words(rng: &mut Rng, table: &[u32]) -> Vec<u32> {
    let n = domains(table);
    let reached = |e| (0..n).any(|caller| may_send(table, caller, e));
    let e = mostly(rng, endpoints(table), reached);
    let caller = mostly(rng, n, |caller| may_send(table, caller, e));
    let message = word(STRAY, message(rng));
    vec![call_word(SEND, caller, 0, e, 0), message]
}

fn may_send(table: &[u32], caller: usize, e: usize) -> bool {
    e < endpoints(table) && rights(table, caller, owner(table, e)) & right::SEND != 0
}

fn receive_word(rng: &mut Rng, table: &[u32]) -> u32 {
    let e = mostly(rng, endpoints(table), |e| waiting(table, e) > 0);
    let is_owner = |caller| e < endpoints(table) && owner(table, e) == caller;
    let caller = mostly(rng, domains(table), is_owner);
    call_word(RECEIVE, caller, 0, e, 0)
}

/// Mostly a grant of rights that the recipient doesn't have yet.
fn grant_word(rng: &mut Rng, table: &[u32]) -> u32 {
    let n = domains(table);
    let has = |holder, target, set| rights(table, holder, target) & set == set;
    let caller = mostly(rng, n, |c| (0..n).any(|t| has(c, t, right::GRANT)));
    let target = mostly(rng, n, |t| has(caller, t, right::GRANT));
    let held = rights(table, caller, target);
    let recipient = mostly(rng, n, |r| {
        (r == caller || rights(table, caller, r) != 0) && !has(r, target, held)
    });
    let set = match held & any_set(rng) {
        0 => rng.pick(&[held.max(1), 1, 2, 4, 8]),
        some => some,
    };
    call_word(GRANT, caller, target, recipient, set)
}

fn remove_word(rng: &mut Rng, table: &[u32]) -> u32 {
    let n = domains(table);
    let can_remove = |caller, target| rights(table, caller, target) & right::REMOVE != 0;
    let caller = mostly(rng, n, |c| (0..n).any(|t| can_remove(c, t)));
    let target = mostly(rng, n, |t| can_remove(caller, t));
    let set = set_to_give_up(rng, rights(table, caller, target));
    call_word(REMOVE, caller, target, 0, set)
}

/// Mostly rights that are held, one or several; now and then with one that isn't.
fn set_to_give_up(rng: &mut Rng, held: u32) -> u32 {
    let some = held & any_set(rng);
    let with = |rng: &mut Rng, wanted| {
        let at = mostly(rng, right::EACH.len(), |i| {
            (held & right::EACH[i] != 0) == wanted
        });
        right::EACH[at]
    };
    match rng.below(8) {
        0 => some | with(rng, false),
        1 => held.max(1),
        2..=4 => some | with(rng, true),
        _ => with(rng, true),
    }
}

/// Mostly a revoke by a domain that may do it, itself the holder or not, of rights
/// that the holder has or lacks.
fn revoke_word(rng: &mut Rng, table: &[u32]) -> u32 {
    let n = domains(table);
    let can_revoke = |caller, target| rights(table, caller, target) & right::REVOKE != 0;
    let caller = mostly(rng, n, |c| (0..n).any(|t| can_revoke(c, t)));
    let target = mostly(rng, n, |t| can_revoke(caller, t));
    let holder = mostly(rng, n, |h| {
        (h == caller || rights(table, caller, h) != 0) && rights(table, h, target) != 0
    });
    let set = if rng.chance(1, 4) {
        any_set(rng)
    } else {
        set_to_give_up(rng, rights(table, holder, target))
    };
    call_word(REVOKE, caller, target, holder, set)
}

// Calls as values, and lists to be written.

/// The largest that each column after the kind may hold, for kinds 1 to 8: caller,
/// A, B, and C or the second word's content. 0 where the kind doesn't use it.
const COLUMN_LIMITS: [[u32; COLUMNS - 1]; 8] = [
    [63, 0, 0, CONTENT_MAX],
    [63, 0, 255, CONTENT_MAX],
    [63, 0, 255, 0],
    [63, 0, 0, 0],
    [63, 0, 0, 0],
    [63, 63, 255, 255],
    [63, 63, 0, 255],
    [63, 63, 255, 255],
];

/// A call that can be written.
pub fn value(rng: &mut Rng) -> Value {
    from_columns(&good_columns(rng)).expect("a call")
}

/// A call with one field that exceeds its bits.
pub fn value_too_large(rng: &mut Rng) -> Value {
    let mut columns = good_columns(rng);
    let column = column_with_limit(rng, columns[0], |limit| limit != 0).expect("a caller");
    let limit = COLUMN_LIMITS[columns[0] as usize - 1][column - 1];
    columns[column] = match rng.below(4) {
        0 => limit + 1,
        1 => u32::MAX,
        2 => 1 << rng.between(limit.count_ones() as usize, 31),
        _ => rng.between(limit as usize + 1, u32::MAX as usize) as u32,
    };
    from_columns(&columns).expect("a call")
}

/// The columns of a call that can be written, with fields often 0 or at their top.
fn good_columns(rng: &mut Rng) -> [u32; COLUMNS] {
    let kind = rng.between(1, COLUMN_LIMITS.len());
    let [caller, a, b, last] = COLUMN_LIMITS[kind - 1].map(|limit| match rng.below(4) {
        0 => 0,
        1 => limit,
        _ => rng.between(0, limit as usize) as u32,
    });
    [kind as u32, caller, a, b, last]
}

/// One of the columns of a kind whose limit is suitable, if there is one.
fn column_with_limit(rng: &mut Rng, kind: u32, suitable: impl Fn(u32) -> bool) -> Option<usize> {
    let limits = COLUMN_LIMITS[kind as usize - 1];
    let suited: Vec<usize> = (1..COLUMNS).filter(|&c| suitable(limits[c - 1])).collect();
    if suited.is_empty() {
        None
    } else {
        Some(rng.pick(&suited))
    }
}

/// Five columns that are no call: a column that the kind doesn't use isn't 0, or the
/// kind isn't one of a call.
fn no_call_columns(rng: &mut Rng) -> [u32; COLUMNS] {
    let mut columns = good_columns(rng);
    match column_with_limit(rng, columns[0], |limit| limit == 0) {
        Some(column) if rng.chance(1, 2) => columns[column] = 1 << rng.below(32),
        _ => columns[0] = rng.pick(&[0, 9, 14, STRAY, 16, columns[0] | 1 << 28, u32::MAX]),
    }
    columns
}

/// What is handed to the writer, and the space that is lent to it.
#[derive(Debug, Clone, PartialEq, Eq)]
pub struct Writing {
    pub calls: Vec<Value>,
    /// Holds words that the writer must leave where it writes none.
    pub space: Vec<u32>,
}

/// A list of up to `max_calls` calls to be written, now and then one that is refused
/// by 30 or 31. Now and then it is about as long as a list can be.
pub fn writing(rng: &mut Rng, max_calls: usize) -> Writing {
    let mut calls: Vec<Value> = if rng.chance(1, 32) {
        let words = LIST_WORDS_MAX - 1 + rng.below(4);
        values_of_words(rng, words)
    } else {
        (0..rng.size(0, max_calls)).map(|_| value(rng)).collect()
    };
    if !calls.is_empty() && rng.chance(1, 4) {
        for _ in 0..rng.between(1, 3) {
            let place = rng.below(calls.len());
            calls[place] = bad_value(rng);
        }
    }
    let needed: usize = calls.iter().map(word_count).sum();
    let space = match rng.below(16) {
        0 => rng.below(needed + 1),
        1 | 2 => needed.saturating_sub(1),
        3 | 4 => needed,
        _ => needed + rng.below(8),
    };
    let space = (0..space).map(|_| rng.word()).collect();
    Writing { calls, space }
}

/// Calls that can be written and have just so many words together.
pub fn values_of_words(rng: &mut Rng, words: usize) -> Vec<Value> {
    let mut calls = Vec::new();
    let mut left = words;
    while left > 0 {
        let call = value(rng);
        if word_count(&call) <= left {
            left -= word_count(&call);
            calls.push(call);
        }
    }
    calls
}

/// A call that can't be written.
fn bad_value(rng: &mut Rng) -> Value {
    if rng.chance(2, 3) {
        value_too_large(rng)
    } else {
        Value::Refused(rng.pick(&[10, 11, 13, 14]))
    }
}

fn word_count(call: &Value) -> usize {
    match call {
        Value::LookUp { .. } | Value::Send { .. } => 2,
        _ => 1,
    }
}

/// Calls as plain words, five for each; for a refused one, five that are no call.
pub fn columns(rng: &mut Rng, calls: &[Value]) -> Vec<u32> {
    let of = |call| to_columns(call).unwrap_or_else(|| no_call_columns(rng));
    calls.iter().flat_map(of).collect()
}

// Whole runs.

/// What is lent to one run.
#[derive(Debug, Clone, PartialEq, Eq)]
pub struct Case {
    pub table: Vec<u32>,
    pub list: Vec<u32>,
    /// The answer space, holding words that a run must leave beyond its answers.
    pub answers: Vec<u32>,
}

/// A run, now and then with something that an entry refuses, 1 to 6.
pub fn case(rng: &mut Rng, max_n: usize, max_m: usize, max_words: usize) -> Case {
    let table = if rng.chance(1, 8) {
        damaged_table(rng, max_n, max_m).0
    } else {
        table(rng, max_n, max_m)
    };
    let mut list = list(rng, &table, max_words);
    if rng.chance(1, 64) {
        let length = LIST_WORDS_MAX + rng.below(3);
        list.resize_with(length, || wild_word(rng));
    }
    let needed = ANSWER_WORDS * cut(&list).len();
    let space = match rng.below(16) {
        0 => rng.below(needed + 1),
        1 => needed.saturating_sub(1),
        2 => needed,
        _ => needed + rng.below(8),
    };
    let answers = (0..space).map(|_| rng.word()).collect();
    Case {
        table,
        list,
        answers,
    }
}

/// An input for `linerun`, now and then one that it refuses.
pub fn linerun_input(rng: &mut Rng, max_n: usize, max_m: usize, max_words: usize) -> Vec<u8> {
    let Case { table, list, .. } = case(rng, max_n, max_m, max_words);
    let length = match rng.below(16) {
        0 => rng.size(0, TABLE_WORDS_MAX) as u32,
        1 => rng.size(TABLE_WORDS_MAX + 1, u32::MAX as usize) as u32,
        _ => table.len() as u32,
    };
    let mut input = to_bytes(&[length]);
    input.extend(to_bytes(&table));
    input.extend(to_bytes(&list));
    match rng.below(16) {
        0 => input.truncate(rng.between(0, 4 + 4 * table.len())),
        1 => input.truncate(rng.between(0, 4)),
        2 => input.extend(vec![0xF0; rng.between(1, 3)]),
        _ => {}
    }
    input
}
