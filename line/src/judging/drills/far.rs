//! Lengths so far above every limit that one which is kept in three bytes or in four would
//! be a lawful one again. What is lent is memory that was asked for and never touched, so
//! that it costs nothing but to who goes over it.

use super::sizes::lent;
use super::{Given, Take};
use crate::cases::Case;
use crate::judging::compare::separate_run;
use crate::judging::exercise::planner::my_rights;
use crate::kernels::boundary::Kernel;
use crate::kernels::process::Reserved;
use reference::calls::LIST_WORDS_MAX;
use reference::entry::ANSWER_WORDS;
use reference::table::domains;

/// What is lent so far.
#[derive(Debug, Clone, Copy)]
enum Part {
    Table,
    List,
    Answers,
    Holders,
}

/// The bits of the lengths, each alone.
const BITS: [u32; 4] = [24, 28, 31, 32];

/// A run of which one part is longer by this many words.
#[derive(Clone)]
pub struct Far {
    case: Case,
    part: Part,
    more: usize,
}

/// Each part of a run with each of the bits in its length: above a length that is right, and
/// of the answer space, of which there can't be too much, alone.
pub fn lengths(table: &[u32], take: &mut Take) {
    let list = vec![my_rights(0).first; 5];
    let space = ANSWER_WORDS * list.len();
    for part in [Part::Table, Part::List, Part::Answers, Part::Holders] {
        for bit in BITS.map(|bit| 1 << bit) {
            let case = lent(table, &list, space, domains(table));
            let more = match part {
                Part::Answers => bit - space,
                _ => bit,
            };
            take(Given::Far(Far { case, part, more }));
        }
    }
}

impl Far {
    /// What differs from the reference's run with a part that is a little too long:
    /// one that is far longer must come to the same. Nothing where the system has no such
    /// memory.
    pub fn difference(&self, kernel: &Kernel) -> Option<String> {
        let right = match separate_run(&self.near()) {
            Ok(right) => right,
            Err(why) => return Some(why),
        };
        let mut left = self.case.clone();
        let length = part_of(&mut left, self.part).len();
        let mut reserved = Reserved::new(length + self.more).ok()?;
        let long = reserved.words();
        long[..length].copy_from_slice(part_of(&mut left, self.part));
        let Case {
            table,
            list,
            answers,
            holders,
        } = &mut left;
        let outcome = match self.part {
            Part::Table => kernel.run(long, list, answers, holders),
            Part::List => kernel.run(table, long, answers, holders),
            Part::Answers => kernel.run(table, list, long, holders),
            Part::Holders => kernel.run(table, list, answers, long),
        };
        let start = long[..length].to_vec();
        part_of(&mut left, self.part).copy_from_slice(&start);
        if outcome != right.outcome {
            return Some(format!(
                "the kernel ends with code {}, the reference with {}",
                outcome.code, right.outcome.code
            ));
        }
        let same = right.table.starts_with(&left.table)
            && right.answers.starts_with(&left.answers)
            && right.holders.starts_with(&left.holders);
        (!same).then(|| "a word is left that the reference leaves otherwise".to_string())
    }

    /// The same run with the part a little too long.
    fn near(&self) -> Case {
        let mut near = self.case.clone();
        let more = match self.part {
            Part::List => LIST_WORDS_MAX,
            _ => 1,
        };
        let part = part_of(&mut near, self.part);
        part.resize(part.len() + more, 0);
        near
    }

    /// What was lent.
    pub fn in_words(&self) -> String {
        let (part, more) = (self.part, self.more);
        format!("{part:?} with {more} words more than a run of 5 calls needs")
    }
}

fn part_of(case: &mut Case, part: Part) -> &mut Vec<u32> {
    match part {
        Part::Table => &mut case.table,
        Part::List => &mut case.list,
        Part::Answers => &mut case.answers,
        Part::Holders => &mut case.holders,
    }
}

#[cfg(test)]
mod tests {
    use super::*;
    use crate::kernels::boundary::PROVED;
    use reference::example::TABLE_T;

    /// A kernel that keeps the lengths of a list and of an answer space in three bytes.
    const THREE_BYTES: Kernel = PROVED.with_run("three bytes", |table, list, answers, holders| {
        // SAFETY: the caller's duties are those of the run; what is shorter is within it.
        let (table, list, answers, holders) =
            unsafe { (&mut *table, &*list, &mut *answers, &mut *holders) };
        let list = &list[..list.len() & 0xFF_FFFF];
        let space = answers.len() & 0xFF_FFFF;
        let outcome = PROVED.run(table, list, &mut answers[..space], holders);
        outcome.calls << 16 | outcome.code
    });

    fn found(kernel: &Kernel) -> Vec<String> {
        let mut found = Vec::new();
        lengths(&TABLE_T, &mut |given| match given {
            Given::Far(far) => found.extend(far.difference(kernel)),
            _ => unreachable!("lengths alone"),
        });
        found
    }

    #[test]
    fn a_length_that_is_cut_off_is_found_and_no_other() {
        assert_eq!(found(&PROVED), [""; 0]);
        let list = "the kernel ends with code 0, the reference with 1";
        let space = "the kernel ends with code 6, the reference with 0";
        let cut_off = found(&THREE_BYTES);
        assert!(cut_off.iter().any(|why| why == list), "{cut_off:?}");
        assert!(cut_off.iter().any(|why| why == space), "{cut_off:?}");
        assert!(cut_off.iter().all(|why| why == list || why == space));
    }
}
