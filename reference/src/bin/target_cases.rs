//! Makes cases for the C functions of include/balkwizu.h: `target_cases SEED CASES`
//! writes them to standard output, for firmware/targets/compare.c to call and compare, and
//! prints how many there are and how many words to compare to standard error.
//!
//! A case is little-endian words: a mark with the function's index, two arguments that are
//! no spaces, the lengths of four spaces, the result in two words, the spaces before the
//! call and the spaces after it.

use std::env;
use std::io::{self, BufWriter, Write};

use reference::entry::ANSWER_WORDS;
use reference::generate::{
    self, call_words, damaged_table, lent_panel, Case, Event, InfluenceCase, PanelCase,
    PotentialCase, RepairCase, Rng,
};
use reference::potential::potential_rights;
use reference::table::{check_table, domains, DOMAINS_MAX};
use reference::words::{from_bytes, to_bytes};
use reference::{
    check_bytes, component, could_influence, cut, repair, run_with_holders, step_with_holders,
    turn_words, who_reaches, write_columns,
};

/// The first word of a case, but for the function's index.
const MARK: u32 = 0xBA1C_0000;
/// The most spaces that a function is lent.
const SPACES: usize = 4;
/// How many events follow the beginning of turns on one table.
const EVENTS: usize = 24;

/// The functions, by the indices that compare.c has.
#[derive(Debug, Clone, Copy)]
enum Function {
    TableCheck,
    Run,
    RunWorking,
    RunByLength,
    WhoReaches,
    Component,
    Potential,
    CouldInfluence,
    Repair,
    Write,
    TurnsBegin,
    HandIn,
    Turn,
    Step,
}

/// One call of a function: what it is passed, what it leaves and what it returns.
struct Called {
    function: Function,
    arguments: [u32; 2],
    given: Vec<Vec<u32>>,
    left: Vec<Vec<u32>>,
    result: u64,
}

impl Called {
    /// Calls the reference implementation's function on spaces.
    fn on<const N: usize>(
        function: Function,
        arguments: [u32; 2],
        given: [Vec<u32>; N],
        reference: impl Fn(&mut [Vec<u32>; N]) -> u64,
    ) -> Called {
        let mut left = given.clone();
        let result = reference(&mut left);
        Called {
            function,
            arguments,
            given: given.to_vec(),
            left: left.to_vec(),
            result,
        }
    }

    /// The words of the case.
    fn words(&self) -> Vec<u32> {
        let length = |space: usize| self.given.get(space).map_or(0, |words| words.len() as u32);
        let mut words = vec![MARK | self.function as u32];
        words.extend(self.arguments);
        words.extend((0..SPACES).map(length));
        words.extend([self.result as u32, (self.result >> 32) as u32]);
        words.extend(self.given.iter().chain(&self.left).flatten());
        words
    }

    /// How many words are compared: those that are left, and the result's two.
    fn compared(&self) -> usize {
        2 + self.left.iter().map(Vec::len).sum::<usize>()
    }
}

/// Returns a code and a number or a set in one word, as most of the C functions do.
fn packed((code, number): (u32, u32)) -> u64 {
    u64::from(code | (number << 16))
}

/// An accepted table, now and then one that is refused.
fn any_table(rng: &mut Rng) -> Vec<u32> {
    let (n, m) = (rng.pick(&[4, 16]), rng.pick(&[4, 32]));
    if rng.chance(1, 4) {
        damaged_table(rng, n, m).0
    } else {
        generate::table(rng, n, m)
    }
}

/// Checks an image at any alignment: the arguments are its length and its offset in bytes.
fn table_check(rng: &mut Rng) -> Called {
    let mut bytes = to_bytes(&any_table(rng));
    match rng.below(8) {
        0 => bytes.truncate(rng.below(bytes.len() + 1)),
        1 => bytes.extend(vec![0; rng.between(1, 3)]),
        _ => {}
    }
    let code = check_bytes(&bytes);
    let arguments = [bytes.len() as u32, rng.below(4) as u32];
    bytes.resize(bytes.len().next_multiple_of(4), 0);
    Called::on(
        Function::TableCheck,
        arguments,
        [from_bytes(&bytes)],
        |_| u64::from(code),
    )
}

fn run(rng: &mut Rng, function: Function) -> Called {
    let (n, m) = (rng.pick(&[4, 16]), rng.pick(&[4, 32]));
    let max_words = rng.pick(&[16, 64, 127, 128, 129, 400]);
    let PanelCase { case, panel } = generate::panel_case(rng, n, m, max_words);
    let Case {
        table,
        list,
        answers,
    } = case;
    let given = [table, list, answers, panel];
    Called::on(function, [0, 0], given, |[table, list, answers, holders]| {
        packed(run_with_holders(table, list, answers, holders))
    })
}

fn ask_who_reaches(rng: &mut Rng) -> Called {
    let (words, domain) = generate::question(rng);
    Called::on(Function::WhoReaches, [domain, 0], [words], |[words]| {
        packed(who_reaches(words, domain))
    })
}

fn ask_component(rng: &mut Rng) -> Called {
    let table = any_table(rng);
    let domain = match check_table(&table) {
        0 if rng.chance(7, 8) => rng.below(domains(&table)),
        _ => rng.below(DOMAINS_MAX + 1),
    };
    let asked = [domain as u32, 0];
    Called::on(
        Function::Component,
        asked,
        [table],
        |[table]| match check_table(table) {
            0 if domain < domains(table) => {
                let members = component(table, domain);
                packed((0, members.iter().fold(0, |set, d| set | (1 << d))))
            }
            0 => 32,
            code => u64::from(code),
        },
    )
}

fn ask_potential(rng: &mut Rng) -> Called {
    let PotentialCase {
        table,
        members,
        space,
    } = generate::potential_case(rng, DOMAINS_MAX, 4);
    let given = [table, space];
    Called::on(Function::Potential, [members, 0], given, |[table, space]| {
        u64::from(potential_rights(table, members, space))
    })
}

fn ask_could_influence(rng: &mut Rng) -> Called {
    let InfluenceCase {
        table,
        actors,
        domain,
    } = generate::influence_case(rng, DOMAINS_MAX, 4);
    let asked = [actors, domain];
    Called::on(Function::CouldInfluence, asked, [table], |[table]| {
        packed(could_influence(table, actors, domain))
    })
}

fn repair_table(rng: &mut Rng) -> Called {
    let RepairCase { table, list } = generate::repair_case(rng, DOMAINS_MAX, 32);
    let given = [table, list];
    Called::on(Function::Repair, [0, 0], given, |[table, changes]| {
        packed(repair(table, changes))
    })
}

fn write_list(rng: &mut Rng) -> Called {
    let writing = generate::writing(rng, 40);
    let given = [generate::columns(rng, &writing.calls), writing.space];
    Called::on(
        Function::Write,
        [0, 0],
        given,
        |[calls, list]| match write_columns(calls, list) {
            (0, words) => words as u64,
            (31, _) => 4097,
            (_, index) => 4098 + index as u64,
        },
    )
}

/// One call by itself, now and then with other words than those of one call.
fn step(rng: &mut Rng) -> Called {
    let table = any_table(rng);
    let mut words = match check_table(&table) {
        0 => cut(&call_words(rng, &table))[0].words(),
        _ => vec![rng.word()],
    };
    if rng.chance(1, 8) {
        words.resize(rng.below(4), rng.word());
    }
    let n = (check_table(&table) == 0).then(|| domains(&table));
    let holders = lent_panel(rng, n.unwrap_or(1));
    let space = rng.pick(&[0, 2, 3, 3, 3, 3, 3, 4]);
    let answer = (0..space).map(|_| rng.word()).collect();
    let given = [table, holders, words, answer];
    Called::on(
        Function::Step,
        [0, 0],
        given,
        |[table, holders, words, answer]| step_code(table, holders, words, answer),
    )
}

fn step_code(table: &mut [u32], holders: &mut [u32], words: &[u32], answer: &mut [u32]) -> u64 {
    let calls = cut(words);
    if calls.len() != 1 {
        return 36;
    }
    if answer.len() < ANSWER_WORDS {
        return 6;
    }
    match step_with_holders(table, &calls[0], holders) {
        Ok(words) => {
            answer[..ANSWER_WORDS].copy_from_slice(&words);
            0
        }
        Err(code) => u64::from(code),
    }
}

/// A table, the state of its turns and what is still to happen to them, last first.
#[derive(Default)]
struct Line {
    table: Vec<u32>,
    state: Vec<u32>,
    events: Vec<Event>,
}

impl Line {
    /// Calls a function of the turns; the line goes on with what it leaves.
    fn next(&mut self, rng: &mut Rng) -> Called {
        if rng.chance(1, 24) && !self.state.is_empty() {
            let place = rng.below(self.state.len());
            self.state[place] = rng.word() >> rng.below(32);
        }
        let called = match self.events.pop() {
            None => self.begin(rng),
            Some(Event::HandIn { domain, words }) => self.hand_in(rng, domain, words),
            Some(Event::Turn { panel }) => self.turn(rng, panel),
        };
        let own = [&called.given[0], &called.given[1]] == [&self.table, &self.state];
        if own {
            self.table.clone_from(&called.left[0]);
            self.state.clone_from(&called.left[1]);
        }
        called
    }

    /// The table and the state, now and then a damaged table or a state too short.
    fn lent(&self, rng: &mut Rng) -> (Vec<u32>, Vec<u32>) {
        let (mut table, mut state) = (self.table.clone(), self.state.clone());
        match rng.below(12) {
            0 => table = damaged_table(rng, 4, 4).0,
            1 => state.truncate(rng.below(state.len())),
            _ => {}
        }
        (table, state)
    }

    fn begin(&mut self, rng: &mut Rng) -> Called {
        let n = rng.pick(&[1, 2, 4, 16]);
        self.table = generate::table_of(rng, n, 4);
        self.state = (0..turn_words::length(n)).map(|_| rng.word()).collect();
        self.events = generate::events(rng, &self.table, EVENTS);
        let ((table, state), holders) = (self.lent(rng), lent_panel(rng, n));
        let given = [table, state, holders];
        Called::on(
            Function::TurnsBegin,
            [0, 0],
            given,
            |[table, state, holders]| u64::from(turn_words::begin(table, state, holders)),
        )
    }

    fn hand_in(&self, rng: &mut Rng, domain: u32, words: Vec<u32>) -> Called {
        let (table, state) = self.lent(rng);
        let given = [table, state, words];
        Called::on(
            Function::HandIn,
            [domain, 0],
            given,
            |[table, state, words]| u64::from(turn_words::hand_in(table, state, domain, words)),
        )
    }

    fn turn(&self, rng: &mut Rng, holders: Vec<u32>) -> Called {
        let (table, state) = self.lent(rng);
        let space = rng.pick(&[0, 2, 3, 3, 3, 3, 3, 4]);
        let answer = (0..space).map(|_| rng.word()).collect();
        let given = [table, state, holders, answer];
        Called::on(
            Function::Turn,
            [0, 0],
            given,
            |[table, state, holders, answer]| {
                packed(turn_words::turn(table, state, holders, answer))
            },
        )
    }
}

/// The case of an index: the functions take turns.
fn draw(rng: &mut Rng, line: &mut Line, index: usize) -> Called {
    match index % 16 {
        0 | 8 => run(rng, Function::Run),
        1 | 9 => run(rng, Function::RunWorking),
        2 | 10 => run(rng, Function::RunByLength),
        3 => table_check(rng),
        4 => ask_who_reaches(rng),
        5 => ask_component(rng),
        6 => ask_potential(rng),
        7 => ask_could_influence(rng),
        11 => repair_table(rng),
        12 => write_list(rng),
        13 => step(rng),
        _ => line.next(rng),
    }
}

fn main() -> io::Result<()> {
    let given: Vec<u64> = env::args()
        .skip(1)
        .filter_map(|word| word.parse().ok())
        .collect();
    let [seed, cases] = given[..] else {
        return Err(io::Error::other("usage: target_cases SEED CASES"));
    };
    let (mut rng, mut line, mut compared) = (Rng::new(seed), Line::default(), 0);
    let mut out = BufWriter::new(io::stdout().lock());
    for index in 0..cases as usize {
        let called = draw(&mut rng, &mut line, index);
        compared += called.compared();
        out.write_all(&to_bytes(&called.words()))?;
    }
    out.flush()?;
    eprintln!("{cases} cases, {compared} words");
    Ok(())
}
