//! A kernel's run beside the reference's, and the first difference
//! between them in words.

use reference::calls::{cut, Call};
use reference::entry::ANSWER_WORDS;
use reference::influence::{QueueView, View};
use reference::table::{domains, rights_place};
use reference::words::bits;
use reference::{from_group, purge, run_with_holders, step, view};

use crate::cases::Case;
use crate::judging::panics::or_panic;
use crate::kernels::boundary::Outcome;
use crate::kernels::lent::Ran;
use crate::text::explain::{call_in_words, counted, meaning, place_in_words};
use crate::text::names::Names;

/// The reference's run of a case; an error where it panics, which is a
/// difference from a kernel that answers.
pub fn separate_run(case: &Case) -> Result<Ran, String> {
    or_panic(|| {
        let (mut table, mut answers) = (case.table.clone(), case.answers.clone());
        let mut holders = case.holders.clone();
        let (code, calls) = run_with_holders(&mut table, &case.list, &mut answers, &mut holders);
        Ran {
            outcome: Outcome { code, calls },
            table,
            answers,
            holders,
        }
    })
}

/// The first difference between the kernel's run and the reference's.
pub fn difference(case: &Case, kernel: &Ran, right: &Ran) -> Option<String> {
    outcome_difference(kernel.outcome, right.outcome)
        .or_else(|| answers_difference(case, kernel, right))
        .or_else(|| table_difference(case, kernel, right))
        .or_else(|| holders_difference(case, kernel, right))
}

/// The first difference in what is refused: the entry's number, a word that a refused run
/// changed, or the answer to a call that one of the two refuses.
pub fn refusal_difference(case: &Case, kernel: &Ran, right: &Ran) -> Option<String> {
    let (code, should) = (kernel.outcome.code, right.outcome.code);
    if code != should {
        return Some(format!(
            "the kernel ends with code {code} ({}), it should be {should} ({})",
            meaning(code),
            meaning(should)
        ));
    }
    if should != 0 {
        let lent = (&case.table, &case.answers, &case.holders);
        let changed = (&kernel.table, &kernel.answers, &kernel.holders) != lent;
        return (changed || kernel.outcome.calls != 0).then(|| {
            format!(
                "refused with {should}, and yet it counts {} or a word was changed",
                counted(kernel.outcome.calls, "call")
            )
        });
    }
    refused_calls_difference(case, kernel, right)
}

/// The first call that one of two runs refuses and that they answer otherwise.
fn refused_calls_difference(case: &Case, kernel: &Ran, right: &Ran) -> Option<String> {
    let calls = right.outcome.calls as usize;
    let of = |ran: &Ran, number: usize| {
        let answer = &ran.answers[number * ANSWER_WORDS..][..ANSWER_WORDS];
        (bits(answer[0], 15, 0), [answer[0], answer[1], answer[2]])
    };
    let differs = |&number: &usize| {
        let ((code, answer), (should, wanted)) = (of(kernel, number), of(right, number));
        (code != 0 || should != 0) && answer != wanted
    };
    let number = (0..calls).find(differs)?;
    Some(format!(
        "call {number} ({}): the kernel answers {}, the reference {}",
        call_in_words(&cut(&case.list)[number], &Names::none()),
        answer_as_printed(&of(kernel, number).1),
        answer_as_printed(&of(right, number).1)
    ))
}

fn outcome_difference(kernel: Outcome, right: Outcome) -> Option<String> {
    if kernel.code != right.code {
        return Some(format!(
            "the kernel ends with code {} ({}), the reference with {} ({})",
            kernel.code,
            meaning(kernel.code),
            right.code,
            meaning(right.code)
        ));
    }
    (kernel.calls != right.calls).then(|| {
        format!(
            "the kernel counts {}, the reference {}",
            counted(kernel.calls, "call"),
            right.calls
        )
    })
}

pub fn first_unequal(a: &[u32], b: &[u32]) -> Option<usize> {
    // Whole slices are compared far faster than word by word.
    let mut places = 0..if a == b { 0 } else { a.len().max(b.len()) };
    places.find(|&place| a.get(place) != b.get(place))
}

fn answers_difference(case: &Case, kernel: &Ran, right: &Ran) -> Option<String> {
    let place = first_unequal(&kernel.answers, &right.answers)?;
    let number = place / ANSWER_WORDS;
    if number >= right.outcome.calls as usize {
        return Some(format!(
            "answer word {place} belongs to no call and was {:08X}: the kernel leaves {:08X}",
            case.answers[place], kernel.answers[place]
        ));
    }
    Some(format!(
        "call {number} ({}): the kernel answers {}, the reference {}",
        call_in_words(&cut(&case.list)[number], &Names::none()),
        answer_as_printed(&kernel.answers[number * ANSWER_WORDS..]),
        answer_as_printed(&right.answers[number * ANSWER_WORDS..])
    ))
}

/// An answer's three words, as `linerun` prints them.
pub fn answer_as_printed(answer: &[u32]) -> String {
    let (kind, caller) = (bits(answer[0], 31, 28), bits(answer[0], 27, 22));
    let code = bits(answer[0], 15, 0);
    let rest = match bits(answer[0], 21, 16) {
        0 => String::new(),
        bits => format!(" (bits 21 to 16 are {bits})"),
    };
    let (x, y) = (answer[1], answer[2]);
    format!("caller {caller} kind {kind} code {code} data {x} {y}{rest}")
}

fn table_difference(case: &Case, kernel: &Ran, right: &Ran) -> Option<String> {
    let place = first_unequal(&kernel.table, &right.table)?;
    let said = match right.outcome.code {
        0 => place_in_words(&case.table, place, &Names::none()),
        code => format!("word {place} of a table refused with {code}"),
    };
    Some(format!(
        "{said}, was {:08X}: the kernel leaves {:08X}, the reference {:08X}",
        case.table[place], kernel.table[place], right.table[place]
    ))
}

pub fn holders_difference(case: &Case, kernel: &Ran, right: &Ran) -> Option<String> {
    let place = first_unequal(&kernel.holders, &right.holders)?;
    Some(format!(
        "the holders of domain {place}, lent as {:08X}: the kernel leaves {:08X}, the \
         reference {:08X}",
        case.holders[place], kernel.holders[place], right.holders[place]
    ))
}

/// The calls that are kept for a domain (document 01: the striking rule), each
/// with whether it is.
pub fn kept_calls(case: &Case, domain: usize) -> Vec<(Call, bool)> {
    let calls = cut(&case.list);
    let kept = purge(&case.table, &calls, domain);
    calls.into_iter().zip(kept).collect()
}

/// How many calls were purged for a domain, and how many of them by other domains: a
/// stray and a call of nobody are purged for everyone.
#[derive(Debug, Clone, Copy, Default, PartialEq, Eq)]
pub struct Purged {
    pub calls: usize,
    pub by_domains: usize,
}

impl Purged {
    pub fn add(&mut self, other: Purged) {
        self.calls += other.calls;
        self.by_domains += other.by_domains;
    }
}

/// Compares what a domain sees of the kernel's run of the whole list and of the
/// reference's run of the calls kept for it: the number of calls purged,
/// or the first difference.
pub fn isolation(case: &Case, kernel: &Ran, domain: usize) -> Result<Purged, String> {
    without_purged(case, kernel, domain, &kept_calls(case, domain))
}

/// The same with every call purged that comes from outside the component of the domain
/// in the table at the start (document 02, request (j): its group).
pub fn component_isolation(case: &Case, kernel: &Ran, domain: usize) -> Result<Purged, String> {
    let calls = cut(&case.list);
    let from = from_group(&case.table, &calls, domain);
    let calls: Vec<(Call, bool)> = calls.into_iter().zip(from).collect();
    without_purged(case, kernel, domain, &calls)
}

/// The same with every call purged whose caller isn't in a set of domains, as bits.
pub fn influence_isolation(
    case: &Case,
    kernel: &Ran,
    domain: usize,
    set: u32,
) -> Result<Purged, String> {
    let member = |caller: u32| caller < 32 && set >> caller & 1 == 1;
    let kept = |call: &Call| call.caller().is_some_and(member);
    let calls = cut(&case.list).into_iter();
    let calls: Vec<(Call, bool)> = calls.map(|call| (call, kept(&call))).collect();
    without_purged(case, kernel, domain, &calls)
}

/// Compares what a domain sees of the kernel's run of all calls and of the reference's run of those that are kept.
fn without_purged(
    case: &Case,
    kernel: &Ran,
    domain: usize,
    calls: &[(Call, bool)],
) -> Result<Purged, String> {
    let kept: Vec<Call> = calls.iter().filter(|(_, k)| *k).map(|(c, _)| *c).collect();
    let mut table = case.table.clone();
    let answers: Vec<u32> = kept
        .iter()
        .flat_map(|call| step(&mut table, call))
        .collect();
    let again = view(&table, &kept, &answers, domain);
    let all: Vec<Call> = calls.iter().map(|(call, _)| *call).collect();
    let whole = view(&kernel.table, &all, &kernel.answers, domain);
    let purged = purged(calls, domains(&case.table));
    match view_difference(case, &all, &whole, &again, domain) {
        None => Ok(purged),
        Some(said) => Err(format!(
            "domain {domain}, with {} of {} purged: {said}",
            purged.calls,
            counted(all.len(), "call")
        )),
    }
}

/// What is purged among calls that are kept or not, in a table of n domains.
fn purged(calls: &[(Call, bool)], n: usize) -> Purged {
    let purged = calls.iter().filter(|(_, kept)| !kept);
    let of_a_domain = |call: &Call| call.caller().is_some_and(|caller| (caller as usize) < n);
    Purged {
        calls: purged.clone().count(),
        by_domains: purged.filter(|(call, _)| of_a_domain(call)).count(),
    }
}

fn view_difference(
    case: &Case,
    calls: &[Call],
    whole: &View,
    again: &View,
    domain: usize,
) -> Option<String> {
    own_answer_difference(calls, whole, again, domain)
        .or_else(|| own_rights_difference(case, whole, again, domain))
        .or_else(|| own_queue_difference(whole, again))
}

fn own_answer_difference(
    calls: &[Call],
    whole: &View,
    again: &View,
    domain: usize,
) -> Option<String> {
    if whole.answers.len() != again.answers.len() {
        return Some("one of its own calls was purged".to_string());
    }
    let place = (0..whole.answers.len()).find(|&i| whole.answers[i] != again.answers[i])?;
    let own = |(_, call): &(usize, &Call)| call.caller() == Some(domain as u32);
    let (number, call) = calls.iter().enumerate().filter(own).nth(place)?;
    Some(format!(
        "its call {number} ({}) is answered {} in the whole list, {} without the purged calls",
        call_in_words(call, &Names::none()),
        answer_as_printed(&whole.answers[place]),
        answer_as_printed(&again.answers[place])
    ))
}

fn own_rights_difference(case: &Case, whole: &View, again: &View, domain: usize) -> Option<String> {
    let target = first_unequal(&whole.rights, &again.rights)?;
    let place = rights_place(&case.table, domain, target);
    Some(format!(
        "{}, is {:08X} after the whole list, {:08X} without the purged calls",
        place_in_words(&case.table, place, &Names::none()),
        whole.rights[target],
        again.rights[target]
    ))
}

fn own_queue_difference(whole: &View, again: &View) -> Option<String> {
    if whole.queues.len() != again.queues.len() {
        return Some(format!(
            "it owns {} after the whole list, {} without the purged calls",
            counted(whole.queues.len(), "endpoint"),
            again.queues.len()
        ));
    }
    let pairs = whole.queues.iter().zip(&again.queues);
    let (with, without) = pairs.into_iter().find(|(a, b)| a != b)?;
    Some(format!(
        "its endpoint {} has {} after the whole list, {} without the purged calls",
        with.endpoint,
        queue_words(with),
        queue_words(without)
    ))
}

fn queue_words(queue: &QueueView) -> String {
    format!(
        "{:08X} {:08X} {}",
        queue.waiting,
        queue.lost,
        reference::words::hex(&queue.messages)
    )
}

#[cfg(test)]
mod tests {
    use super::*;
    use crate::judging::variants::case_of;
    use crate::kernels::boundary::{Kernel, PROVED};
    use crate::kernels::faulty;
    use crate::kernels::lent::run_here;
    use crate::text::input::Input;

    fn example() -> Case {
        case_of(&Input::example())
    }

    fn said(kernel: &Kernel) -> Option<String> {
        let case = example();
        match run_here(kernel, &case) {
            Err(wrong) => Some(wrong.to_string()),
            Ok(ran) => difference(&case, &ran, &separate_run(&case).unwrap()),
        }
    }

    #[test]
    fn the_proved_kernel_does_not_differ() {
        assert_eq!(said(&PROVED), None);
        let case = example();
        let ran = run_here(&PROVED, &case).unwrap();
        let purged = [0, 1, 2].map(|domain| isolation(&case, &ran, domain).unwrap());
        assert_eq!(purged.map(|purged| purged.calls), [4, 4, 1]);
        assert_eq!(purged.map(|purged| purged.by_domains), [3, 3, 0]);
    }

    #[test]
    fn purged_calls_are_those_of_p12() {
        let calls = kept_calls(&example(), 1);
        let purged: Vec<usize> = (0..9).filter(|&i| !calls[i].1).collect();
        assert_eq!(purged, [4, 5, 6, 8]);
    }

    #[test]
    fn a_wrong_answer_is_reported() {
        let said = said(&faulty::WRONG_ANSWER).unwrap();
        assert!(said.starts_with("call 8 (domain 2 asks for its endpoints)"));
        assert!(said.contains("the kernel answers caller 2 kind 4 code 0 data 3 0"));
    }

    #[test]
    fn a_wrong_table_is_reported() {
        let said = said(&faulty::WRONG_TABLE).unwrap();
        assert!(said.starts_with("word 33, endpoint 1's message slot 7, was F0000000"));
    }

    #[test]
    fn wrong_holders_are_reported() {
        let wrong = said(&faulty::WRONG_HOLDERS).unwrap();
        assert!(wrong.starts_with("the holders of domain 2"), "{wrong}");
        let after = said(&faulty::WRITES_AFTER_HOLDERS).unwrap();
        assert!(after.contains("outside the holders' words"), "{after}");
    }

    #[test]
    fn a_wrong_code_and_a_wrong_count_are_reported() {
        let code = said(&faulty::WRONG_CODE).unwrap();
        assert!(code.starts_with("the kernel ends with code 6"), "{code}");
        let count = said(&faulty::WRONG_COUNT).unwrap();
        assert_eq!(count, "the kernel counts 10 calls, the reference 9");
    }

    #[test]
    fn words_beyond_the_answers_and_beyond_the_space_are_watched() {
        let beyond = said(&faulty::WRITES_BEYOND_ANSWERS).unwrap();
        assert!(beyond.starts_with("answer word 27 belongs to no call"));
        let outside = said(&faulty::WRITES_OUTSIDE).unwrap();
        assert_eq!(
            outside,
            "the kernel wrote outside the answer space it was lent"
        );
        let list = said(&faulty::WRITES_LIST).unwrap();
        assert_eq!(list, "the kernel wrote the list");
    }

    #[test]
    fn a_view_that_differs_is_reported() {
        let case = example();
        let mut ran = separate_run(&case).unwrap();
        ran.answers[3 * 5 + 1] = 1;
        let said = isolation(&case, &ran, 2).unwrap_err();
        assert!(said.contains("its call 5 (domain 2 receives from endpoint 1)"));
        ran = separate_run(&case).unwrap();
        ran.table[3] = 0x2000_0000;
        let said = isolation(&case, &ran, 0).unwrap_err();
        assert!(
            said.contains("the rights of domain 0 on domain 2"),
            "{said}"
        );
        ran = separate_run(&case).unwrap();
        ran.table[25] = 0x6000_0000;
        let said = isolation(&case, &ran, 2).unwrap_err();
        assert!(
            said.contains("its endpoint 1 has 50000000 60000000"),
            "{said}"
        );
    }
}
