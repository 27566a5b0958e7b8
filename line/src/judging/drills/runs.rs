//! Short lists over tables of different sizes, larger ones first, one after another in one
//! process and more than a hundred thousand in all, so that what a kernel keeps between runs
//! shows, and what it counts in a byte or in two.

use reference::calls::Call;
use reference::table::{domains, endpoints, right};

use super::bits::run_of;
use super::tables::{spread, Shape};
use super::{Given, Tables, Take};
use crate::cases::Case;
use crate::judging::exercise::planner::{grant, look_up, my_endpoints, my_rights, receive, send};
use crate::judging::variants::case_of;
use crate::text::input::Input;

/// So many runs there are at least.
pub const RUNS: usize = 100_000;

/// The sizes of the tables, each of them with all rights, larger and smaller by turns.
const SIZES: [(usize, usize); 10] = [
    (16, 32),
    (1, 0),
    (9, 31),
    (2, 1),
    (4, 4),
    (1, 1),
    (8, 6),
    (3, 2),
    (2, 7),
    (1, 2),
];

/// The drill: the line's table and the family from the largest on, then small tables among
/// which larger ones come now and then.
pub fn one_after_another(tables: &Tables, take: &mut Take) {
    let mut from_the_largest: Vec<&[u32]> = tables.all().collect();
    from_the_largest.sort_by_key(|table| std::cmp::Reverse(table.len()));
    for table in from_the_largest {
        for turn in 0..8 {
            run_of(table, short(table, turn), take);
        }
    }
    let cases: Vec<Case> = SIZES
        .iter()
        .flat_map(|&(n, m)| (0..4).map(move |turn| of(n, m, turn)))
        .collect();
    // The largest table comes once in a while: its check takes longest.
    let small: Vec<&Case> = cases.iter().filter(|case| case.table.len() < 200).collect();
    for number in 0..RUNS {
        let case = match number % 40 {
            0 => &cases[number / 40 % cases.len()],
            _ => small[number % small.len()],
        };
        take(Given::Run(case.clone()));
    }
}

fn of(n: usize, m: usize, turn: usize) -> Case {
    let mut shape = Shape::new(n, m).with_rights(|_, _| right::ALL);
    for queue in &mut shape.queues {
        queue.capacity = 1 + turn % 8;
    }
    let table = shape.words();
    let list = short(&table, turn);
    case_of(&Input { table, list })
}

/// A grant, and a call of each other kind about numbers that differ by turns.
fn short(table: &[u32], turn: usize) -> Vec<u32> {
    let (n, m) = (domains(table), endpoints(table));
    let (caller, e) = (turn % n, turn % m.max(1));
    let calls = [
        grant(caller, (turn + 1) % n, caller, right::ALL),
        send(caller, e, spread(turn)),
        send(caller, e, spread(turn + 1)),
        receive(caller, e),
        look_up(caller, spread(e)),
        my_endpoints(caller),
        my_rights(caller),
    ];
    let count = 1 + (turn + 3) % calls.len();
    calls[..count].iter().flat_map(Call::words).collect()
}
