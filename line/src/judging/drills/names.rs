//! Names at every endpoint, names that differ in one bit, names that are near each other, far
//! apart or drawn, names of one byte again and again, and names that repeat.

use reference::generate::Rng;
use reference::table::ENDPOINTS_MAX;
use reference::words::CONTENT_MAX;

use super::bits::calls_of;
use super::tables::{patterns, Shape};
use super::{Tables, Take};
use crate::judging::exercise::planner::look_up;

/// The numbers of endpoints that have their names compared, on both sides of those where a
/// kernel may look for them in another way; larger ones first, so that a name which is kept
/// from them shows.
const COUNTS: [usize; 8] = [32, 31, 8, 7, 6, 3, 2, 1];

/// The drill.
pub fn names(_: &Tables, take: &mut Take) {
    for m in COUNTS {
        for by in 0..m {
            turned_round(m, by, take);
        }
        for (first, second) in (0..m).flat_map(|j| (0..j).map(move |i| (i, j))) {
            repeated(m, first, second, take);
        }
        near(m, take);
        at_the_ends(m, take);
        filled(m, take);
    }
    for m in 2..=ENDPOINTS_MAX {
        (0..m - 1).for_each(|e| repeated(m, e, m - 1, take));
    }
    sets(take);
}

/// Names that are each power of two apart, and names that are drawn.
fn sets(take: &mut Take) {
    for (bit, by) in (0..28).map(|bit| (bit, 1 << bit)) {
        let name = |e: usize| (1 + (e as u32 & (CONTENT_MAX >> bit)) * by) & CONTENT_MAX;
        each_repeated(name, take);
    }
    let rng = &mut Rng::new(76);
    for _ in 0..DRAWN {
        let names: Vec<u32> = (0..ENDPOINTS_MAX)
            .map(|_| (rng.word() >> 4).max(1))
            .collect();
        each_repeated(|e| names[e], take);
    }
}

/// So many sets of names are drawn.
const DRAWN: usize = 40;

/// As many endpoints as there can be with these names, and then with each of them again at
/// the last one.
fn each_repeated(name: impl Fn(usize) -> u32, take: &mut Take) {
    let mut shape = Shape::new(2, ENDPOINTS_MAX);
    for (e, queue) in shape.queues.iter_mut().enumerate() {
        queue.name = name(e);
    }
    looked_up(&shape, take);
    for e in 0..ENDPOINTS_MAX - 1 {
        shape.queues[ENDPOINTS_MAX - 1].name = name(e);
        calls_of(&shape.words(), [], take);
    }
}

/// Each name that is one byte again and again, where it is absent and where it is there.
fn filled(m: usize, take: &mut Take) {
    let absent = patterns().map(|name| look_up(0, name));
    calls_of(&Shape::new(2, m).words(), absent, take);
    for name in patterns() {
        let mut shape = Shape::new(2, m);
        shape.queues[m - 1].name = name;
        looked_up(&shape, take);
    }
}

/// Each name looked up.
fn looked_up(shape: &Shape, take: &mut Take) {
    let names = shape.queues.iter().map(|queue| queue.name);
    calls_of(&shape.words(), names.map(|name| look_up(0, name)), take);
}

/// Every name by so many endpoints further on.
fn turned_round(m: usize, by: usize, take: &mut Take) {
    let mut shape = Shape::new(2, m);
    let names: Vec<u32> = shape.queues.iter().map(|queue| queue.name).collect();
    for (e, queue) in shape.queues.iter_mut().enumerate() {
        queue.name = names[(e + by) % m];
    }
    looked_up(&shape, take);
}

/// Two endpoints with one name, which is refused.
fn repeated(m: usize, first: usize, second: usize, take: &mut Take) {
    let mut shape = Shape::new(2, m);
    shape.queues[second].name = shape.queues[first].name;
    looked_up(&shape, take);
}

/// The first and the last name alike but for one bit, each of them; and both looked up with
/// that bit turned.
fn near(m: usize, take: &mut Take) {
    for bit in (0..28).filter(|_| m > 1) {
        let mut shape = Shape::new(2, m);
        shape.queues[m - 1].name = shape.queues[0].name ^ 1 << bit;
        looked_up(&shape, take);
    }
}

/// The least name and the largest at each endpoint.
fn at_the_ends(m: usize, take: &mut Take) {
    for e in 0..m {
        for name in [0, 1, CONTENT_MAX] {
            let mut shape = Shape::new(2, m);
            shape.queues[e].name = name;
            looked_up(&shape, take);
        }
    }
}
