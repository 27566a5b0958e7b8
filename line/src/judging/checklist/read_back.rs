//! The four checks judged on words that were read back from a controller: the answers and
//! the table that its own run of the list left. One run shows less than a kernel that can
//! be run at will; what it can't show is said.

use reference::calls::cut;
use reference::entry::ANSWER_WORDS;
use reference::influence::tables_before;
use reference::table::{domains, endpoints};
use reference::words::bits;

use super::checks::{
    count_difference, endpoint_counts, purged_by_list, same_size, sources_in_words, word_difference,
};
use super::{Check, Found, Judged, Verdicts};
use crate::cases::Case;
use crate::judging::checklist::basis::Basis;
use crate::judging::checklist::shown;
use crate::judging::compare::{answer_as_printed, isolation, separate_run, Purged};
use crate::kernels::boundary::Outcome;
use crate::kernels::lent::Ran;
use crate::text::explain::{call_in_words, counted, place_in_words};
use crate::text::input::Input;
use crate::text::names::Names;

/// What a run on a controller left, beside the reference's run.
pub struct ReadBack {
    names: Names,
    case: Case,
    ran: Ran,
    right: Ran,
}

impl ReadBack {
    /// An input that runs, the answers to its list and the table that was left; what is
    /// wrong where these have other lengths than they must.
    pub fn new(
        input: &Input,
        names: &Names,
        answers: Vec<u32>,
        left: Vec<u32>,
    ) -> Result<ReadBack, String> {
        let calls = cut(&input.list).len();
        let case = Case {
            table: input.table.clone(),
            list: input.list.clone(),
            answers: vec![0; ANSWER_WORDS * calls],
            holders: vec![0; domains(&input.table)],
        };
        let what = format!("the answer to {}", counted(calls, "call"));
        same_length(&what, &answers, &case.answers)?;
        same_length("the table left", &left, &case.table)?;
        let right = separate_run(&case)?;
        let ran = Ran {
            outcome: Outcome {
                code: 0,
                calls: calls as u32,
            },
            table: left,
            answers,
            // They aren't read back, so nothing is to be found in them.
            holders: right.holders.clone(),
        };
        Ok(ReadBack {
            names: names.clone(),
            case,
            ran,
            right,
        })
    }

    pub fn verdicts(self) -> Verdicts {
        let check = |name, judged| Check::new(name, judged, &self.names);
        let checks = [
            check("refusals", self.refusals()),
            check("answers and table", self.answers_and_table()),
            check("isolation", self.isolation()),
            check("counts", self.counts()),
        ];
        Verdicts {
            checks,
            left: Ok(self.ran),
        }
    }

    fn basis(&self) -> Basis {
        Basis::of([&self.case])
    }

    /// Check 1, as far as one run shows it: each call is refused that should be, by its
    /// number, and no other; and words that no done call alters are as they were.
    fn refusals(&self) -> Judged {
        self.refused_alike()?;
        let untouched = self.untouched()?;
        let basis = self.basis();
        let (refused, words) = (basis.refused(), self.case.table.len());
        Ok(Found {
            in_order: "each by its code, and no word changed but by a call that is done",
            based_on: vec![
                format!(
                    "{refused} of {} refused ({})",
                    counted(basis.calls, "call"),
                    basis.refused_in_words()
                ),
                format!("{untouched} of {words} table words, which no done call alters, are as they were"),
            ],
            not_shown: shown::refusals_by_one_run(&basis),
            shown: refused != 0,
        })
    }

    /// That the same calls are refused as by the reference, with the same answers.
    fn refused_alike(&self) -> Result<(), String> {
        let calls = cut(&self.case.list);
        let answered = self.ran.answers.chunks_exact(ANSWER_WORDS);
        let answers = answered.zip(self.right.answers.chunks_exact(ANSWER_WORDS));
        let code = |answer: &[u32]| bits(answer[0], 15, 0);
        let wrong = |(answer, right): (&[u32], &[u32])| match (code(answer), code(right)) {
            (0, 0) => false,
            _ => answer != right,
        };
        let mut numbered = answers.enumerate();
        let Some((number, (answer, right))) = numbered.find(|(_, pair)| wrong(*pair)) else {
            return Ok(());
        };
        Err(format!(
            "call {number} ({}): it is answered {}, it should be {}",
            call_in_words(&calls[number], &Names::none()),
            answer_as_printed(answer),
            answer_as_printed(right)
        ))
    }

    /// How many table words no call alters on its way, all of which are as they were; or
    /// the first that isn't.
    fn untouched(&self) -> Result<usize, String> {
        let before = &self.case.table;
        let tables = tables_before(before, &cut(&self.case.list));
        let stays = |place: &usize| tables.iter().all(|table| table[*place] == before[*place]);
        let untouched: Vec<usize> = (0..before.len()).filter(stays).collect();
        let changed = |&&place: &&usize| self.ran.table[place] != before[place];
        match untouched.iter().find(changed) {
            None => Ok(untouched.len()),
            Some(&place) => Err(format!(
                "{}, was {:08X}: no done call alters it, and it is {:08X}",
                place_in_words(before, place, &Names::none()),
                before[place],
                self.ran.table[place]
            )),
        }
    }

    /// Check 2.
    fn answers_and_table(&self) -> Judged {
        word_difference(&self.case, &self.ran)?;
        let basis = self.basis();
        Ok(Found {
            in_order: "every word is the reference's",
            based_on: vec![
                format!(
                    "{} and {}",
                    counted(self.ran.answers.len(), "answer word"),
                    counted(self.ran.table.len(), "table word")
                ),
                format!("done in this list: {}", basis.done_in_words()),
            ],
            not_shown: shown::answers_by_one_run(&basis),
            shown: basis.calls != 0,
        })
    }

    /// Check 3.
    fn isolation(&self) -> Judged {
        same_size(&self.case, &self.ran)?;
        let each = (0..domains(&self.case.table)).map(|d| isolation(&self.case, &self.ran, d));
        let purged: Vec<Purged> = each.collect::<Result<_, _>>()?;
        Ok(Found {
            in_order: "every domain sees the same without the calls purged for it",
            based_on: vec![
                purged_by_list(&purged, &self.names),
                sources_in_words(&self.case, &self.names),
            ],
            not_shown: shown::isolation_by_list(&purged, &self.names),
            shown: purged.iter().any(|purged| purged.by_domains != 0),
        })
    }

    /// Check 4.
    fn counts(&self) -> Judged {
        same_size(&self.case, &self.ran)?;
        count_difference(&self.case, &self.ran)?;
        let basis = self.basis();
        let answered = format!("{} answered", counted(basis.calls, "call"));
        let each = (0..endpoints(&self.case.table))
            .map(|endpoint| endpoint_counts(&self.case, &self.ran, endpoint, &self.names));
        Ok(Found {
            in_order: "what was sent is received, lost or waiting",
            based_on: [answered].into_iter().chain(each).collect(),
            not_shown: shown::counts_by_one_run(&basis, &self.names),
            shown: basis
                .at
                .iter()
                .any(|at| at.queue.sent + at.queue.received != 0),
        })
    }
}

/// That so many words were read back as there must be.
fn same_length(what: &str, read: &[u32], right: &[u32]) -> Result<(), String> {
    let (there, must) = (read.len(), counted(right.len(), "word"));
    match there == right.len() {
        true => Ok(()),
        false => Err(format!("{what} takes {must}, and {there} were read back")),
    }
}

#[cfg(test)]
mod tests {
    use super::*;
    use crate::judging::variants::case_of;

    /// The right words of an input.
    fn words(input: &Input) -> (Vec<u32>, Vec<u32>) {
        let calls = cut(&input.list).len();
        let ran = separate_run(&case_of(input)).unwrap();
        (ran.answers[..ANSWER_WORDS * calls].to_vec(), ran.table)
    }

    fn judged(input: &Input, answers: &[u32], left: &[u32]) -> [Judged; 4] {
        let read = ReadBack::new(input, &Names::none(), answers.to_vec(), left.to_vec()).unwrap();
        read.verdicts().checks.map(|check| check.judged)
    }

    /// Which of the checks fail once some words of the worked example are altered.
    fn failing(alter: impl FnOnce(&mut [u32], &mut [u32])) -> Vec<usize> {
        let input = Input::example();
        let (mut answers, mut left) = words(&input);
        alter(&mut answers, &mut left);
        let judged = judged(&input, &answers, &left);
        (1..5).filter(|check| judged[check - 1].is_err()).collect()
    }

    #[test]
    fn right_words_pass_and_what_they_cannot_show_is_said() {
        let input = Input::example();
        let (answers, left) = words(&input);
        let [refusals, answers, isolation, counts] =
            judged(&input, &answers, &left).map(|judged| judged.expect("it passes"));
        assert!([&refusals, &answers, &isolation, &counts]
            .iter()
            .all(|found| found.shown));
        assert_eq!(
            refusals.based_on[0],
            "3 of 9 calls refused (10: 1, 17: 1, 19: 1)"
        );
        assert!(refusals.not_shown[0].starts_with("damaged tables"));
        assert!(refusals
            .not_shown
            .iter()
            .any(|unshown| unshown.contains("11, 12, 13, 14, 15, 16, 18")));
        assert_eq!(answers.based_on[0], "27 answer words and 34 table words");
        assert!(isolation.based_on[0].contains("domain 0: 3, domain 1: 3, domain 2: 0"));
        assert_eq!(
            isolation.based_on[1],
            "source set of each domain over this list: domain 0: 0 1, domain 1: 0 1, domain 2: 0 1 2"
        );
        assert_eq!(
            counts.based_on[2],
            "endpoint 1: sent 2, received 1, lost 1, waiting 0 before and 0 after, lost count 1"
        );
    }

    #[test]
    fn nothing_altered_fails_no_check() {
        assert_eq!(failing(|_, _| {}), Vec::<usize>::new());
    }

    #[test]
    fn each_check_fails_for_words_of_its_own() {
        // A refusal by another number, one that is answered as done, and a call refused that
        // is done.
        assert!(failing(|answers, _| answers[0] ^= 3).contains(&1));
        assert!(failing(|answers, _| answers[0] &= !0xFFFF).contains(&1));
        assert!(failing(|answers, _| answers[3] |= 22).contains(&1));
        // A word that no call alters: the rights of domain 1 on domain 0.
        assert_eq!(failing(|_, left| left[4] = 0x2000_0000), [1, 2, 3]);
        // A message that nobody sent, and data with an answer that is done.
        assert_eq!(failing(|answers, _| answers[13] ^= 1), [2, 3]);
        assert_eq!(failing(|answers, _| answers[22] ^= 1 << 31), [2, 3]);
        // A lost count in the table, and one that a receive returns.
        assert_eq!(failing(|_, left| left[25] += 1), [2, 3, 4]);
        assert_eq!(failing(|answers, _| answers[14] = 0), [2, 3, 4]);
        // A message that still waits in the table: seen by its owner, and by the counts.
        assert_eq!(failing(|_, left| left[24] += 1), [2, 3, 4]);
    }

    #[test]
    fn endpoints_exchanged_and_another_owner_fail_check_3() {
        let exchanged = failing(|_, left| {
            let (first, second) = left[10..].split_at_mut(12);
            first.swap_with_slice(second);
        });
        assert_eq!(exchanged, [1, 2, 3, 4]);
        let owner = failing(|_, left| left[11] = 0x4000_0002);
        assert_eq!(owner, [1, 2, 3]);
        // Word 0 says how all others are read.
        assert_eq!(failing(|_, left| left[0] ^= 1), [1, 2, 3, 4]);
    }

    #[test]
    fn every_single_bit_of_every_word_fails_check_2() {
        let (answers, left) = words(&Input::example());
        for bit in 0..32 * answers.len() {
            let failing = failing(|answers, _| answers[bit / 32] ^= 1 << (bit % 32));
            assert!(failing.contains(&2), "bit {bit} of the answers");
        }
        for bit in 0..32 * left.len() {
            let failing = failing(|_, left| left[bit / 32] ^= 1 << (bit % 32));
            assert!(failing.contains(&2), "bit {bit} of the table");
        }
    }

    #[test]
    fn wrong_lengths_are_reported() {
        let input = Input::example();
        let (answers, left) = words(&input);
        let wrong = |answers: &[u32], left: &[u32]| {
            let read = ReadBack::new(&input, &Names::none(), answers.to_vec(), left.to_vec());
            read.err().expect("it is reported")
        };
        assert_eq!(
            wrong(&answers[1..], &left),
            "the answer to 9 calls takes 27 words, and 26 were read back"
        );
        assert_eq!(
            wrong(&answers, &[&left[..], &[0]].concat()),
            "the table left takes 34 words, and 35 were read back"
        );
    }

    #[test]
    fn a_list_that_shows_nothing_passes_no_check() {
        let table = Input::example().table;
        let left = table.clone();
        let input = Input {
            table,
            list: vec![],
        };
        for judged in judged(&input, &[], &left) {
            let found = judged.expect("nothing fails");
            assert!(!found.shown && !found.not_shown.is_empty());
        }
    }
}
