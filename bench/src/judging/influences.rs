//! Who could influence a domain: the proved function beside the reference implementation on
//! random tables, actors and domains. The proved kernel is held to it both ways: a list by
//! actors alone has no other source and shows nothing of the calls of others, and the list
//! that is built has all of them.

use reference::calls::{cut, Call};
use reference::generate::{influence_case, list_by, InfluenceCase, Rng};
use reference::table::{domains, rights};
use reference::words::hex;
use reference::{could_influence, influence_list, members};

use line::cases::random::rng_for;
use line::judging::compare::influence_isolation;
use line::judging::panics::or_panic;
use line::judging::trying::{try_all, Draws, Met};
use line::judging::variants::case_of;
use line::kernels::boundary::{CouldInfluence, PROVED};
use line::kernels::lent::{all_done, run_here};
use line::text::input::Input;

/// The codes of the function.
const CODES: [u32; 6] = [0, 2, 3, 4, 5, 32];

/// The sizes that tables are drawn in: the most domains and endpoints.
const SIZES: [(usize, usize); 4] = [(16, 2), (4, 2), (3, 1), (8, 2)];

/// The longest list that is run, in words.
const WORDS_MAX: usize = 40;

/// What must be met.
pub fn met() -> Met {
    Met::codes("who could influence, with code", CODES).and(Met::of(&[
        "a set with another domain",
        "a set with another domain by calls alone",
        "a domain that could if others acted",
        "a source in a random list of the actors",
        "a call purged from such a list",
        "a word of a list that is built with all sources",
    ]))
}

/// Tries tables; the first with which something is wrong.
pub fn try_influences(could: CouldInfluence, draws: &Draws, met: &mut Met) -> Result<(), String> {
    let found = try_all("who could influence", draws, met, |number, met| {
        let rng = &mut rng_for(draws.seed.rotate_left(40), number);
        let (n, m) = SIZES[(number % SIZES.len() as u64) as usize];
        let case = influence_case(rng, n, m);
        let judged = judged(could, &case, rng, met);
        judged.map_err(|why| with_words(&case, &why))
    });
    found.map_err(|found| found.report("who could influence a domain of table", "tables", draws))
}

fn judged(
    could: CouldInfluence,
    case: &InfluenceCase,
    rng: &mut Rng,
    met: &mut Met,
) -> Result<(), String> {
    let answer = could(&case.table, case.actors, case.domain);
    let right = or_panic(|| could_influence(&case.table, case.actors, case.domain))?;
    if answer != right {
        return Err(format!(
            "the kernel answers {} with the set {:#b}, the reference {} with {:#b}",
            answer.0, answer.1, right.0, right.1
        ));
    }
    met.add_code("who could influence, with code", answer.0, 1);
    match answer {
        (0, set) => {
            count_members(case, set, met);
            bounds_runs(case, set, rng, met)
        }
        _ => Ok(()),
    }
}

/// Counts what the set shows: others, by calls alone, and those who need others to act.
fn count_members(case: &InfluenceCase, set: u32, met: &mut Met) {
    let (n, domain) = (domains(&case.table), case.domain as usize);
    let is_member = |u: usize| set >> u & 1 == 1;
    let has_right = |u: usize| (0..n).any(|v| is_member(v) && rights(&case.table, u, v) != 0);
    let mut others = (0..n).filter(|&u| u != domain && is_member(u));
    met.add("a set with another domain", others.clone().next().is_some());
    let by_calls = others.any(|u| !has_right(u));
    met.add("a set with another domain by calls alone", by_calls);
    let (_, with_all) = could_influence(&case.table, !(!0 << n), case.domain);
    let more = with_all & case.actors & !set != 0;
    met.add("a domain that could if others acted", more);
}

/// That a list by actors has sources in the set alone and shows the domain nothing of the
/// calls of others, and that the list that is built has the whole set as sources.
fn bounds_runs(case: &InfluenceCase, set: u32, rng: &mut Rng, met: &mut Met) -> Result<(), String> {
    let (table, domain) = (&case.table, case.domain as usize);
    let list = list_by(rng, table, case.actors, WORDS_MAX);
    let sources = source_bits(table, &cut(&list), domain);
    if sources & !set != 0 {
        return Err(format!(
            "a list by the actors has the sources {sources:#b}, beyond {set:#b}: {}",
            hex(&list)
        ));
    }
    let run = case_of(&Input {
        table: table.clone(),
        list,
    });
    let ran = run_here(&PROVED, &run).map_err(String::from)?;
    let purged = influence_isolation(&run, &ran, domain, set)?;
    let built = influence_list(table, case.actors);
    let all = source_bits(table, &cut(&built), domain);
    if all != set || !all_done(&PROVED, table, &built)? {
        return Err(format!(
            "the list that is built has the sources {all:#b} in place of {set:#b}, or a call that \
             isn't done: {}",
            hex(&built)
        ));
    }
    met.add(
        "a source in a random list of the actors",
        sources.count_ones() - 1,
    );
    met.add("a call purged from such a list", purged.by_domains as u64);
    met.add(
        "a word of a list that is built with all sources",
        built.len() as u64,
    );
    Ok(())
}

/// The source set of a domain over a list, as bits.
fn source_bits(table: &[u32], calls: &[Call], domain: usize) -> u32 {
    let sources = members(table, calls, domain);
    sources.iter().map(|source| 1 << source).sum()
}

fn with_words(case: &InfluenceCase, why: &str) -> String {
    format!(
        "{why}\nDomain {}, actors {:#b}, and the table:\n{}",
        case.domain,
        case.actors,
        hex(&case.table)
    )
}

#[cfg(test)]
mod tests {
    use super::*;
    use line::kernels::boundary;
    use line::trial::draws;

    fn reported(wrong: CouldInfluence) -> String {
        let found = try_influences(wrong, &draws(0..3000), &mut met());
        found.expect_err("it is found")
    }

    #[test]
    fn the_proved_function_does_not_differ_and_everything_is_met() {
        let mut met = met();
        let tried = try_influences(boundary::could_influence, &draws(0..3000), &mut met);
        assert_eq!(tried, Ok(()));
        assert_eq!(met.missing(), [""; 0]);
    }

    #[test]
    fn a_wrong_one_is_found() {
        let right = boundary::could_influence;
        let fewer = reported(|table, actors, domain| {
            let (code, set) = boundary::could_influence(table, actors, domain);
            (code, set & (1 << domain % 32))
        });
        assert!(
            fewer.contains("\n  the kernel answers 0 with the set"),
            "{fewer}"
        );
        let wrong: CouldInfluence = |table, actors, domain| {
            let (code, set) = boundary::could_influence(table, actors, domain);
            (code % 32, set)
        };
        assert!(reported(wrong).contains("the reference 32 with 0b0"));
        assert_eq!(right(&reference::example::TABLE_T, 0b111, 2), (0, 0b111));
        assert_eq!(right(&reference::example::TABLE_T, 0b001, 2), (0, 0b100));
        assert_eq!(right(&reference::example::TABLE_T, 0b1000, 2), (32, 0));
    }
}
