//! The holders' words (document 02, request (h)) after a list's first calls, and who has
//! a chain of rights to whom by them: the kernel's beside the reference's.

use reference::calls::{cut, Call};
use reference::generate::{question, Rng};
use reference::table::domains;
use reference::{holders, step};

use crate::cases::Case;
use crate::judging::trying::Met;
use crate::kernels::boundary::{who_reaches, Outcome};
use crate::kernels::lent::{Failure, Ran};

/// Lists with no more calls are looked at after each call, longer ones after a few.
const CALLS_FOR_EACH: usize = 32;
const OF_A_LONG_LIST: usize = 4;

/// What questions must meet.
pub fn met() -> Met {
    Met::of(&[
        "a beginning of a list whose holders are compared",
        "a question who reaches a domain answered",
        "a question who reaches a domain refused",
        "a domain that reaches another by a chain of rights",
    ])
}

/// Runs a case's first calls, none of them, one, two and so on, and compares the words
/// that the kernel leaves with those worked out afresh from the reference's table.
pub fn after_each_call(
    case: &Case,
    number: u64,
    met: &mut Met,
    run: impl Fn(&Case) -> Result<Ran, Failure>,
) -> Result<(), String> {
    let calls = cut(&case.list);
    let every = match calls.len() {
        0..=CALLS_FOR_EACH => 1,
        many => many / OF_A_LONG_LIST,
    };
    let mut table = case.table.clone();
    for done in 0..=calls.len() {
        if done % every == 0 {
            let ran = run(&first(case, &calls[..done]))?;
            kept(&ran, &table, done)?;
            let domain = (number + done as u64) % (domains(&table) as u64 + 1);
            ask(&ran.holders, domain as u32, met)?;
            met.add("a beginning of a list whose holders are compared", true);
        }
        if let Some(call) = calls.get(done) {
            step(&mut table, call);
        }
    }
    Ok(())
}

/// That a run of so many calls leaves the holders of the table after them.
fn kept(ran: &Ran, table: &[u32], calls: usize) -> Result<(), String> {
    let Outcome {
        code,
        calls: counted,
    } = ran.outcome;
    if (code, counted) != (0, calls as u32) {
        return Err(format!(
            "of its first {calls} calls the kernel says code {code} and {counted} calls"
        ));
    }
    let (kept, wanted) = (&ran.holders, holders(table));
    match *kept == wanted {
        true => Ok(()),
        false => Err(format!(
            "after {calls} of its calls the kernel leaves the holders {kept:X?}, the table says \
             {wanted:X?}"
        )),
    }
}

/// The same case with its first calls alone.
fn first(case: &Case, calls: &[Call]) -> Case {
    Case {
        list: calls.iter().flat_map(Call::words).collect(),
        ..case.clone()
    }
}

/// Asks any words about any domain.
pub fn ask_anything(rng: &mut Rng, met: &mut Met) -> Result<(), String> {
    let (lent, domain) = question(rng);
    ask(&lent, domain, met)
}

/// Asks who reaches a domain, by the proved function and by the reference.
fn ask(lent: &[u32], domain: u32, met: &mut Met) -> Result<(), String> {
    let (code, set) = who_reaches(lent, domain);
    let (wanted_code, wanted) = reference::who_reaches(lent, domain);
    if (code, set) != (wanted_code, wanted) {
        return Err(format!(
            "who reaches domain {domain} by the holders {lent:X?}: the kernel answers code {code} \
             and {set:X}, the reference code {wanted_code} and {wanted:X}"
        ));
    }
    let at_once = lent
        .get(domain as usize)
        .map_or(0, |held| held | 1 << domain);
    let by_chain = code == 0 && set & !at_once != 0;
    met.add("a question who reaches a domain answered", code == 0);
    met.add("a question who reaches a domain refused", code != 0);
    met.add(
        "a domain that reaches another by a chain of rights",
        by_chain,
    );
    Ok(())
}

#[cfg(test)]
mod tests {
    use super::*;
    use crate::judging::variants::case_of;
    use crate::kernels::boundary::PROVED;
    use crate::kernels::lent::run_here;
    use crate::text::input::Input;

    #[test]
    fn the_proved_kernel_keeps_the_words_call_by_call_and_others_are_found() {
        let case = case_of(&Input::example());
        let met = &mut met();
        let tried = after_each_call(&case, 0, met, |first| run_here(&PROVED, first));
        assert_eq!(tried, Ok(()));
        assert_eq!(
            met.count("a beginning of a list whose holders are compared"),
            10
        );
        let at_start = run_here(&PROVED, &first(&case, &[])).unwrap().holders;
        let stays = after_each_call(&case, 0, met, |first| {
            let mut ran = run_here(&PROVED, first)?;
            ran.holders.clone_from(&at_start);
            Ok(ran)
        });
        let why = stays.unwrap_err();
        assert!(why.starts_with("after 2 of its calls"), "{why}");
    }

    #[test]
    fn any_words_can_be_asked() {
        let (mut rng, mut met) = (Rng::new(5), met());
        for _ in 0..5000 {
            ask_anything(&mut rng, &mut met).unwrap();
        }
        assert!(met.count("a question who reaches a domain answered") > 1000);
        assert!(met.count("a question who reaches a domain refused") > 500);
        assert!(met.count("a domain that reaches another by a chain of rights") > 500);
    }
}
