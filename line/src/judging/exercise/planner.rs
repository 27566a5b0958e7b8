//! A list in the making: calls are put after one another while the reference
//! is fed them, so that a planner can ask what a call would come to before it makes it.
//! No rule is here: what is allowed is what the machine does.

use reference::calls::{
    cut, Call, GRANT, LIST_WORDS_MAX, LOOK_UP, MY_ENDPOINTS, MY_RIGHTS, RECEIVE, REMOVE, REVOKE,
    SEND, STRAY,
};
use reference::generate::call_word;
use reference::machine::refusal;
use reference::step;
use reference::table::{domains, right};
use reference::words::{word, CONTENT_MAX};

use crate::cases::Case;
use crate::judging::variants::case_of;
use crate::text::input::Input;

/// A list of the exercise with the table that it starts on, and what it goes through.
pub struct Planned {
    pub what: String,
    pub case: Case,
}

/// So many calls are made before a word that asks for nothing comes in between.
const BETWEEN: usize = 8;

/// The largest number that the field of the caller holds.
pub const CALLER_MAX: usize = 63;

pub struct Planner {
    what: String,
    /// The table that the list in the making starts on, and the one that it leaves.
    start: Vec<u32>,
    now: Vec<u32>,
    list: Vec<u32>,
    /// The lists that are full.
    full: Vec<Planned>,
    made: usize,
    messages: u32,
}

impl Planner {
    pub fn new(what: &str, table: &[u32]) -> Planner {
        Planner {
            what: what.to_string(),
            start: table.to_vec(),
            now: table.to_vec(),
            list: Vec::new(),
            full: Vec::new(),
            made: 0,
            messages: 0,
        }
    }

    /// The table as the calls so far leave it.
    pub fn table(&self) -> &[u32] {
        &self.now
    }

    /// The number that a call would be answered with now.
    pub fn code(&self, call: &Call) -> u32 {
        refusal(&self.now, call).unwrap_or(0)
    }

    /// Whether a call would alter the table now.
    pub fn alters(&self, call: &Call) -> bool {
        self.code(call) == 0 && {
            let mut after = self.now.clone();
            step(&mut after, call);
            after != self.now
        }
    }

    /// Puts a call last; now and then something that asks for nothing comes first.
    pub fn make(&mut self, call: Call) {
        self.made += 1;
        if self.made.is_multiple_of(BETWEEN) {
            self.put(between(self.made / BETWEEN, domains(&self.now)));
        }
        self.put(call);
    }

    /// Puts a call last. A list that is full is gone on with in another one, which
    /// starts on the table as it is by then.
    fn put(&mut self, call: Call) {
        let words = call.words();
        let joins = |last: &u32| cut(&[*last, words[0]]).len() == 1;
        if self.list.last().is_some_and(joins) {
            // A stray directly after a lone first word would be its second one.
            self.put(my_rights(0));
        }
        if self.list.len() + words.len() > LIST_WORDS_MAX {
            self.close();
        }
        step(&mut self.now, &call);
        self.list.extend(words);
    }

    fn close(&mut self) {
        let table = std::mem::replace(&mut self.start, self.now.clone());
        let list = std::mem::take(&mut self.list);
        self.full.push(Planned {
            what: self.what.clone(),
            case: case_of(&Input { table, list }),
        });
    }

    /// A message that no other of this list is equal to.
    pub fn message(&mut self) -> u32 {
        self.messages += 1;
        // An odd factor gives each number below 2^28 another one, with bits all over.
        self.messages.wrapping_mul(0x9E3_779B) & CONTENT_MAX
    }

    /// The lists that were made.
    pub fn lists(mut self) -> Vec<Planned> {
        if !self.list.is_empty() {
            self.close();
        }
        let parts = self.full.len();
        for (number, list) in self.full.iter_mut().enumerate().filter(|_| parts > 1) {
            list.what += &format!(", part {}", number + 1);
        }
        self.full
    }
}

/// What comes in between: a stray, an unknown kind, a call of nobody, in turn.
fn between(number: usize, n: usize) -> Call {
    let alone = |first| Call {
        first,
        second: None,
    };
    let unknown: Vec<u32> = (0..STRAY)
        .filter(|&kind| alone(kind << 28).is_unknown())
        .collect();
    let nobody = [n, CALLER_MAX][number % 2];
    match number % 3 {
        0 => alone(word(STRAY, (number as u32) << 16 | 1)),
        1 => alone(call_word(
            unknown[number % unknown.len()],
            number % n,
            0,
            0,
            1,
        )),
        _ => send(nobody, 0, number as u32),
    }
}

/// The sets of one right.
pub fn single_rights() -> impl Iterator<Item = u32> + Clone {
    let bits = (0..u32::BITS).map(|bit| 1 << bit);
    bits.filter(|set| right::ALL & set != 0)
}

fn one_word(kind: u32, caller: usize, a: usize, b: usize, c: u32) -> Call {
    Call {
        first: call_word(kind, caller, a, b, c),
        second: None,
    }
}

pub fn look_up(caller: usize, name: u32) -> Call {
    Call {
        second: Some(word(STRAY, name)),
        ..one_word(LOOK_UP, caller, 0, 0, 0)
    }
}

pub fn send(caller: usize, endpoint: usize, message: u32) -> Call {
    Call {
        second: Some(word(STRAY, message)),
        ..one_word(SEND, caller, 0, endpoint, 0)
    }
}

pub fn receive(caller: usize, endpoint: usize) -> Call {
    one_word(RECEIVE, caller, 0, endpoint, 0)
}

pub fn my_endpoints(caller: usize) -> Call {
    one_word(MY_ENDPOINTS, caller, 0, 0, 0)
}

pub fn my_rights(caller: usize) -> Call {
    one_word(MY_RIGHTS, caller, 0, 0, 0)
}

pub fn grant(caller: usize, target: usize, recipient: usize, set: u32) -> Call {
    one_word(GRANT, caller, target, recipient, set)
}

pub fn remove(caller: usize, target: usize, set: u32) -> Call {
    one_word(REMOVE, caller, target, 0, set)
}

pub fn revoke(caller: usize, target: usize, holder: usize, set: u32) -> Call {
    one_word(REVOKE, caller, target, holder, set)
}

#[cfg(test)]
mod tests {
    use super::*;
    use reference::example::TABLE_T;

    fn lone(first: u32) -> Call {
        Call {
            first,
            second: None,
        }
    }

    #[test]
    fn calls_stay_the_calls_that_were_made() {
        let mut plan = Planner::new("", &TABLE_T);
        let stray = lone(0xF000_0001);
        let alone = lone(call_word(SEND, 0, 0, 1, 0));
        let made = [alone, stray, look_up(0, 0x11)];
        for call in made {
            plan.make(call);
        }
        let calls = cut(&plan.lists()[0].case.list);
        assert_eq!(calls, [made[0], my_rights(0), made[1], made[2]]);
    }

    #[test]
    fn strays_unknown_kinds_and_calls_of_nobody_come_in_between() {
        let mut plan = Planner::new("", &TABLE_T);
        for _ in 0..6 * BETWEEN {
            plan.make(my_rights(1));
        }
        let calls = cut(&plan.lists()[0].case.list);
        let codes: Vec<_> = calls
            .iter()
            .filter_map(|call| refusal(&TABLE_T, call))
            .collect();
        assert_eq!(codes, [11, 12, 10, 11, 12, 10]);
    }

    #[test]
    fn a_full_list_is_gone_on_with_from_the_table_as_it_is() {
        let mut plan = Planner::new("", &TABLE_T);
        plan.make(send(0, 0, 5));
        for _ in 0..LIST_WORDS_MAX {
            plan.make(my_rights(0));
        }
        assert_eq!(plan.code(&receive(1, 0)), 0);
        assert!(plan.alters(&receive(1, 0)) && !plan.alters(&receive(2, 0)));
        let lists = plan.lists();
        let long = lists[0].case.list.len();
        assert!(long == LIST_WORDS_MAX || long == LIST_WORDS_MAX - 1);
        assert_eq!(lists[0].case.table, TABLE_T);
        assert_eq!(lists[1].case.table[14], 0xF000_0005);
        assert_eq!(lists[1].what, ", part 2");
    }
}
