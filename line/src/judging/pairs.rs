//! The isolation rule between two lines (document 02, request (g)): one list from two
//! tables that agree on each member of the set for a domain shows that domain the same
//! of both runs. The second table is drawn: all that isn't a member's is drawn anew.

use reference::calls::{cut, Call};
use reference::generate::{redrawn_but_for, Rng};
use reference::table::domains;
use reference::{agree, members, view};

use crate::cases::random::rng_for;
use crate::cases::Case;
use crate::judging::trying::Met;
use crate::kernels::lent::{Failure, Ran};

/// Lists with more calls than this are left out: the set takes a run of its own.
const CALLS_MAX: usize = 80;

/// What pairs must meet.
pub fn met() -> Met {
    Met::of(&[
        "a pair of lines compared",
        "a pair that differs where a domain can't be reached",
        "a pair of which another domain is answered otherwise",
    ])
}

/// Runs a case's list from a second table too, and compares what a domain sees. There is
/// nothing to compare where every domain is a member, or where the list is long.
pub fn pair(
    case: &Case,
    ran: &Ran,
    (seed, number): (u64, u64),
    met: &mut Met,
    run: impl FnOnce(&Case) -> Result<Ran, Failure>,
) -> Result<(), String> {
    let calls = cut(&case.list);
    if ran.outcome.code != 0 || calls.len() > CALLS_MAX {
        return Ok(());
    }
    let rng = &mut rng_for(seed.rotate_left(16), number);
    let Some((domain, other)) = second_line(rng, case, &calls)? else {
        return Ok(());
    };
    let second = run(&other)?;
    let both = |d| {
        let seen = |ran: &Ran| view(&ran.table, &calls, &ran.answers, d);
        (seen(ran), seen(&second))
    };
    let (first, again) = both(domain);
    if second.outcome.code != 0 || first != again {
        return Err(format!(
            "domain {domain} sees another thing of the same list from a table that differs only \
             where domain {domain} can't be reached: first {first:X?}, then {again:X?}"
        ));
    }
    let otherwise = |d| both(d).0.answers != both(d).1.answers;
    let otherwise = (0..domains(&case.table)).any(otherwise);
    let parts = other.table != case.table;
    met.add("a pair of lines compared", true);
    met.add("a pair that differs where a domain can't be reached", parts);
    met.add(
        "a pair of which another domain is answered otherwise",
        otherwise,
    );
    Ok(())
}

/// A domain, and the case from a second table that agrees with the first on each member of
/// the set for it; nothing where every domain is a member.
fn second_line(
    rng: &mut Rng,
    case: &Case,
    calls: &[Call],
) -> Result<Option<(usize, Case)>, String> {
    let n = domains(&case.table);
    let domain = rng.below(n);
    let set = members(&case.table, calls, domain);
    if set.len() == n {
        return Ok(None);
    }
    let other = Case {
        table: redrawn_but_for(rng, &case.table, &set),
        ..case.clone()
    };
    match agree(&case.table, &other.table, calls, domain) {
        true => Ok(Some((domain, other))),
        false => {
            Err("the drawn table doesn't agree on the members: a fault of this program".into())
        }
    }
}

#[cfg(test)]
mod tests {
    use super::*;
    use crate::cases::random::run_case;
    use crate::kernels::boundary::PROVED;
    use crate::kernels::lent::run_here;

    fn tried(number: u64, met: &mut Met, alter: impl Fn(&mut Ran)) -> Result<(), String> {
        let case = run_case(1, number);
        let ran = run_here(&PROVED, &case).unwrap();
        pair(&case, &ran, (1, number), met, |other| {
            let mut ran = run_here(&PROVED, other)?;
            alter(&mut ran);
            Ok(ran)
        })
    }

    #[test]
    fn a_kernel_that_lets_another_line_show_is_found_and_the_proved_one_does_not() {
        let mut met = met();
        for number in 0..1500 {
            assert_eq!(tried(number, &mut met, |_| ()), Ok(()));
        }
        assert!(met.count("a pair of which another domain is answered otherwise") > 20);
        let alters = |ran: &mut Ran| ran.answers.iter_mut().for_each(|word| *word ^= 1);
        let wrong = (0..1500).find_map(|number| tried(number, &mut met, alters).err());
        assert!(wrong
            .unwrap()
            .contains("sees another thing of the same list"));
    }
}
