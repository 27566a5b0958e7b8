//! What a turn of the proved layer costs, idle and serving, by the size of the table, and
//! how much of it is the check of the table: all in one run, each in its turn.
//!
//! The check that a turn makes is that of the table's words, which no function of its own
//! shows: it is measured by handing in for a domain that isn't there, which is refused with
//! 35 as soon as the table is checked.

use std::hint::black_box;
use std::time::{Duration, Instant};

use reference::calls::{MY_RIGHTS, SEND, STRAY};
use reference::generate::call_word;
use reference::table::{domains, endpoints};
use reference::turn_words::length;
use reference::words::{to_bytes, word};

use crate::judging::timing::{median, TURN};
use line::cases::tables::open_table;
use line::judging::turning::{difference, separate_event};
use line::kernels::boundary::PROVED;
use line::kernels::layer::{event_here, Event, Lent, PROVED_LAYER};

/// The numbers of domains and of endpoints that are measured, each with each.
const DOMAINS: [usize; 3] = [1, 4, 16];
const ENDPOINTS: [usize; 3] = [0, 4, 32];

/// The head of the table that is printed, and what is below it.
pub const HEAD: &str = "\
| n | m | table words | idle turn | turn serving my rights | turn serving a send | check alone | check \
over idle | check over my rights | check over bytes | run of my rights |
|---:|---:|---:|---:|---:|---:|---:|---:|---:|---:|---:|";
pub const FOOT: &str = "\
Nanoseconds, and ratios of times. Every domain has every right on every domain; turns serve as many calls as can be pending, \
each domain's in its turn, and the state and the table are reset outside the timed part. The check alone is handing in for a \
domain that isn't there, which is refused with 35 after the check of the table's words; the check over bytes is \
balkwizu_table_check of the same table; the run is balkwizu_run of the list of that one call.";

/// A table to measure on.
pub struct Size {
    table: Vec<u32>,
}

pub fn sizes() -> Vec<Size> {
    let each = DOMAINS.iter().flat_map(|&n| ENDPOINTS.map(|m| (n, m)));
    each.map(|(n, m)| Size {
        table: open_table(n, m).0,
    })
    .collect()
}

/// A domain asks for its rights; or sends to an endpoint, where there is one.
fn my_rights(domain: usize, _: usize) -> Vec<u32> {
    vec![call_word(MY_RIGHTS, domain, 0, 0, 0)]
}

fn send(domain: usize, m: usize) -> Vec<u32> {
    vec![call_word(SEND, domain, 0, domain % m, 0), word(STRAY, 7)]
}

type CallOf = fn(domain: usize, m: usize) -> Vec<u32>;

impl Size {
    /// The table and a state with nothing pending, and space for the rest.
    fn lent(&self) -> Lent {
        let n = domains(&self.table);
        Lent {
            table: self.table.clone(),
            state: vec![0; length(n)],
            holders: vec![0; n],
            answer: vec![0; 3],
        }
    }

    /// The same with as many calls pending as can be, and how many they are.
    fn full(&self, call_of: CallOf) -> (Lent, usize) {
        let mut lent = self.lent();
        let mut calls = 0;
        for domain in 0..domains(&self.table) {
            let words = call_of(domain, endpoints(&self.table));
            let mut more =
                || PROVED_LAYER.hand_in(&lent.table, &mut lent.state, domain as u32, &words) == 0;
            while more() {
                calls += 1;
            }
        }
        (lent, calls)
    }
}

/// What differs from the reference where all that is pending is served, and one turn
/// more.
pub fn first_wrong(size: &Size) -> Option<String> {
    let kinds: &[CallOf] = match endpoints(&size.table) {
        0 => &[my_rights],
        _ => &[my_rights, send],
    };
    kinds.iter().find_map(|&call_of| {
        let (mut lent, calls) = size.full(call_of);
        (0..=calls).find_map(|_| {
            let left = event_here(&PROVED_LAYER, &lent, &Event::Turn).map_err(String::from);
            let compared = left.and_then(|left| {
                let wanted = separate_event(&lent, &Event::Turn)?;
                difference(&lent, &left, &wanted).map_or(Ok(left.words), Err)
            });
            match compared {
                Ok(words) => {
                    lent = words;
                    None
                }
                Err(why) => Some(format!("a turn on {}: {why}", titled(size))),
            }
        })
    })
}

fn titled(size: &Size) -> String {
    format!("n {}, m {}", domains(&size.table), endpoints(&size.table))
}

/// Something to be timed: it is done so many times, and how long that took is given.
type Act<'a> = Box<dyn FnMut(usize) -> Duration + 'a>;

/// How long `act` takes, done so many times.
fn timed(times: usize, mut act: impl FnMut()) -> Duration {
    let start = Instant::now();
    for _ in 0..times {
        act();
    }
    start.elapsed()
}

fn idle(size: &Size) -> Act<'_> {
    let mut lent = size.lent();
    Box::new(move |times| timed(times, || assert_eq!(turn(&mut lent), 0)))
}

fn turn(lent: &mut Lent) -> u32 {
    (PROVED_LAYER.turn)(
        black_box(&mut lent.table),
        &mut lent.state,
        &mut lent.holders,
        &mut lent.answer,
    )
}

/// Turns that serve all that can be pending; what the clock itself takes is left out.
fn serving(size: &Size, call_of: CallOf) -> Act<'_> {
    let (full, calls) = size.full(call_of);
    let mut lent = full.clone();
    Box::new(move |times| {
        let mut all = Duration::ZERO;
        let rounds = times.div_ceil(calls);
        for _ in 0..rounds {
            lent.table.copy_from_slice(&full.table);
            lent.state.copy_from_slice(&full.state);
            all += timed(calls, || assert_eq!(turn(&mut lent), 0x1_0000));
            all = all.saturating_sub(clock());
        }
        all.mul_f64(times as f64 / (rounds * calls) as f64)
    })
}

/// What the clock takes to be read twice.
fn clock() -> Duration {
    timed(1, || {})
}

fn check(size: &Size) -> Act<'_> {
    let mut lent = size.lent();
    let n = domains(&size.table) as u32;
    Box::new(move |times| {
        timed(times, || {
            let table = black_box(&lent.table);
            assert_eq!(PROVED_LAYER.hand_in(table, &mut lent.state, n, &[]), 35);
        })
    })
}

fn check_of_bytes(size: &Size) -> Act<'_> {
    let bytes = to_bytes(&size.table);
    Box::new(move |times| {
        timed(times, || {
            assert_eq!(PROVED.table_check(black_box(&bytes)), 0);
        })
    })
}

fn run(size: &Size) -> Act<'_> {
    let mut lent = size.lent();
    let list = my_rights(0, 0);
    Box::new(move |times| {
        timed(times, || {
            let (table, answer) = (black_box(&mut lent.table), &mut lent.answer);
            let outcome = PROVED.run(table, &list, answer, &mut lent.holders);
            assert_eq!((outcome.code, outcome.calls), (0, 1));
        })
    })
}

/// The order of the acts.
const IDLE: usize = 0;
const SERVING: usize = 1;
const CHECK: usize = 2;
const BYTES: usize = 3;
const RUN: usize = 4;
const SENDING: usize = 5;

/// One line of the table.
pub fn row(size: &Size, rounds: usize) -> String {
    let m = endpoints(&size.table);
    let mut acts = vec![
        idle(size),
        serving(size, my_rights),
        check(size),
        check_of_bytes(size),
        run(size),
    ];
    if m > 0 {
        acts.push(serving(size, send));
    }
    let figures = measured(&mut acts, rounds);
    let nanoseconds = |act: usize| match figures.get(act) {
        Some(figures) => format!("{:.1}", 1e9 * median(figures.to_vec())),
        None => "—".to_string(),
    };
    let over = |act: usize| {
        let ratios = figures[CHECK].iter().zip(&figures[act]);
        format!(
            "{:.2}",
            median(ratios.map(|(check, turn)| check / turn).collect())
        )
    };
    let cells = [
        domains(&size.table).to_string(),
        m.to_string(),
        size.table.len().to_string(),
        nanoseconds(IDLE),
        nanoseconds(SERVING),
        nanoseconds(SENDING),
        nanoseconds(CHECK),
        over(IDLE),
        over(SERVING),
        nanoseconds(BYTES),
        nanoseconds(RUN),
    ];
    format!("| {} |", cells.join(" | "))
}

/// Seconds for one, for each act in each round.
fn measured(acts: &mut [Act], rounds: usize) -> Vec<Vec<f64>> {
    let times: Vec<usize> = acts.iter_mut().map(times_for).collect();
    let mut seconds = vec![Vec::with_capacity(rounds); acts.len()];
    for round in 0..rounds {
        for turn in 0..acts.len() {
            // Who begins goes round, so that nobody always follows the same one.
            let which = (turn + round) % acts.len();
            let timed = acts[which](times[which]).as_secs_f64();
            seconds[which].push(timed / times[which] as f64);
        }
    }
    seconds
}

/// How often an act is repeated in a round, so that it lasts about as long as it should.
fn times_for(act: &mut Act) -> usize {
    act(200);
    let each = act(200).as_nanos().max(200) / 200;
    (TURN.as_nanos() / each).max(1) as usize
}

#[cfg(test)]
mod tests {
    use super::*;

    #[test]
    fn turns_are_right_on_every_size() {
        assert_eq!(sizes().iter().find_map(first_wrong), None);
        assert_eq!(sizes().len(), 9);
    }

    #[test]
    fn as_many_calls_are_pending_as_can_be() {
        let sizes = sizes();
        let largest = sizes.last().unwrap();
        assert_eq!(largest.full(my_rights).1, 16 * 16);
        assert_eq!(largest.full(send).1, 16 * 8);
    }

    #[test]
    fn a_row_has_a_cell_for_each_title() {
        let columns = |line: &str| line.matches('|').count();
        let wanted = columns(HEAD.lines().next().unwrap());
        assert_eq!(columns(HEAD.lines().nth(1).unwrap()), wanted);
        for size in &sizes()[..2] {
            assert_eq!(columns(&row(size, 1)), wanted);
        }
    }
}
