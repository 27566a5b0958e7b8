//! The lists of a shift, run one after another by the proved kernel, and what comes of them:
//! the end-of-shift sheet, and the calls that were refused.

use reference::entry::ANSWER_WORDS;
use reference::table::{domains, endpoints, waiting};
use reference::words::{bits, to_bytes};
use reference::{cut, Call};

use crate::cases::Case;
use crate::judging::counts::{follow, Queue};
use crate::kernels::boundary::{Outcome, PROVED};
use crate::kernels::lent::run_here;

/// The sheet: a row for each endpoint, how many lists ran, and the code that ended it.
#[derive(Debug, Clone, PartialEq, Eq)]
pub struct Sheet {
    pub rows: Vec<Row>,
    pub lists: u64,
    pub code: u32,
}

/// What is counted of one endpoint.
#[derive(Debug, Clone, Copy, PartialEq, Eq)]
pub struct Row {
    pub sent: u64,
    pub received: u64,
    pub lost: u64,
    pub start: u64,
    pub end: u64,
}

impl Sheet {
    /// The sheet word for word as `linetotals` prints it.
    pub fn printed(&self) -> String {
        let rows = self.rows.iter().enumerate().map(|(endpoint, row)| {
            format!(
                "endpoint {endpoint} sent {} received {} lost {} start {} end {}\n",
                row.sent, row.received, row.lost, row.start, row.end
            )
        });
        rows.collect::<String>() + &format!("lists {} code {}\n", self.lists, self.code)
    }
}

/// A list that ran: how many calls it has, and how many of them were refused.
#[derive(Debug, Clone, PartialEq, Eq)]
pub struct Ran {
    pub name: String,
    pub calls: usize,
    pub refused: usize,
}

/// A call that a list has once or more, refused with the same code each time.
#[derive(Debug, Clone, PartialEq, Eq)]
pub struct Refused {
    /// The list, by its place among those that ran.
    pub list: usize,
    /// The number of the first such call.
    pub first: usize,
    pub times: usize,
    pub call: Call,
    pub code: u32,
}

/// The lists that ran so far, from one table.
pub struct Shift {
    start: Vec<u32>,
    /// The table that the last list left.
    pub table: Vec<u32>,
    queues: Vec<Queue>,
    lists: Vec<Vec<u32>>,
    pub ran: Vec<Ran>,
    pub refused: Vec<Refused>,
}

impl Shift {
    /// Nothing ran yet on an accepted table.
    pub fn begin(table: &[u32]) -> Shift {
        Shift {
            start: table.to_vec(),
            table: table.to_vec(),
            queues: vec![Queue::default(); endpoints(table)],
            lists: Vec::new(),
            ran: Vec::new(),
            refused: Vec::new(),
        }
    }

    /// Runs a list of 4,096 words at most; an error where the kernel fails.
    pub fn run(&mut self, name: &str, list: &[u32]) -> Result<(), String> {
        let calls = cut(list);
        let case = Case {
            table: self.table.clone(),
            list: list.to_vec(),
            answers: vec![0; ANSWER_WORDS * calls.len()],
            holders: vec![0; domains(&self.table)],
        };
        let ran = run_here(&PROVED, &case)?;
        let wanted = Outcome {
            code: 0,
            calls: calls.len() as u32,
        };
        if ran.outcome != wanted {
            let (code, calls) = (ran.outcome.code, ran.outcome.calls);
            return Err(format!(
                "the kernel answers {calls} calls of {name} with {code}"
            ));
        }
        let counts = follow(&self.table, &calls, &ran.answers);
        for (queue, met) in self.queues.iter_mut().zip(&counts.queues) {
            queue.add(met);
        }
        let refused = self.note(&calls, &ran.answers);
        self.ran.push(Ran {
            name: name.to_string(),
            calls: calls.len(),
            refused,
        });
        self.lists.push(list.to_vec());
        self.table = ran.table;
        Ok(())
    }

    /// Notes the calls of a list that were refused; how many there are.
    fn note(&mut self, calls: &[Call], answers: &[u32]) -> usize {
        let list = self.ran.len();
        let before = self.refused.len();
        let mut count = 0;
        for (first, (call, answer)) in calls.iter().zip(answers.chunks(ANSWER_WORDS)).enumerate() {
            let code = bits(answer[0], 15, 0);
            if code == 0 {
                continue;
            }
            count += 1;
            let mut known = self.refused[before..].iter_mut();
            match known.find(|known| (known.code, &known.call) == (code, call)) {
                Some(known) => known.times += 1,
                None => self.refused.push(Refused {
                    list,
                    first,
                    times: 1,
                    call: *call,
                    code,
                }),
            }
        }
        count
    }

    /// The sheet of the lists that ran, ended by some code; an error where the reference
    /// counts otherwise.
    pub fn sheet(&self, code: u32) -> Result<Sheet, String> {
        let rows = self.queues.iter().enumerate().map(|(endpoint, queue)| Row {
            sent: queue.sent,
            received: queue.received,
            lost: queue.full,
            start: waiting(&self.start, endpoint) as u64,
            end: waiting(&self.table, endpoint) as u64,
        });
        let mut sheet = Sheet {
            rows: rows.collect(),
            lists: self.ran.len() as u64,
            code: 0,
        };
        if reference::totals(&self.joined()) != sheet.printed().as_bytes() {
            return Err("the reference counts otherwise".to_string());
        }
        sheet.code = code;
        Ok(sheet)
    }

    /// The input of `linetotals`: the table, then each list, with their lengths before them.
    pub fn joined(&self) -> Vec<u8> {
        let parts = [&self.start].into_iter().chain(&self.lists);
        let words: Vec<u32> = parts
            .flat_map(|part| [&[part.len() as u32], part.as_slice()].concat())
            .collect();
        to_bytes(&words)
    }
}

#[cfg(test)]
mod tests {
    use super::*;
    use reference::example::{LIST_L, TABLE_T};
    use reference::generate::{self, Rng};

    #[test]
    fn a_list_that_ran_twice_is_counted_twice() {
        let mut shift = Shift::begin(&TABLE_T);
        shift.run("a", &LIST_L).unwrap();
        shift.run("b", &LIST_L).unwrap();
        let printed = shift.sheet(0).unwrap().printed();
        let last = "endpoint 1 sent 5 received 2 lost 3 start 0 end 0\nlists 2 code 0\n";
        assert!(printed.ends_with(last), "{printed}");
        assert_eq!((shift.ran[1].calls, shift.ran[0].refused), (9, 3));
        let at: Vec<_> = shift
            .refused
            .iter()
            .map(|r| (r.list, r.first, r.code))
            .collect();
        assert_eq!(
            at,
            [(0, 0, 17), (0, 5, 19), (0, 6, 10), (1, 5, 19), (1, 6, 10)]
        );
    }

    #[test]
    fn drawn_shifts_are_counted_as_the_reference_does() {
        let mut rng = Rng::new(71);
        for _ in 0..300 {
            let table = generate::table(&mut rng, 5, 4);
            let mut shift = Shift::begin(&table);
            for _ in 0..rng.below(5) {
                let list = generate::list(&mut rng, &shift.table, 60);
                shift.run("drawn", &list).unwrap();
            }
            let printed = shift.sheet(0).unwrap().printed();
            assert_eq!(reference::totals(&shift.joined()), printed.as_bytes());
            let refused: usize = shift.refused.iter().map(|refused| refused.times).sum();
            assert_eq!(refused, shift.ran.iter().map(|ran| ran.refused).sum());
        }
    }

    #[test]
    fn the_same_call_refused_again_is_counted() {
        let mut shift = Shift::begin(&TABLE_T);
        shift.run("a", &[0x3080_0100; 3]).unwrap();
        assert_eq!((shift.refused.len(), shift.refused[0].times), (1, 3));
    }
}
