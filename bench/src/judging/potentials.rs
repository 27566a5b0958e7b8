//! Potential rights: the proved function beside the reference on random tables and sets
//! of actors. The proved kernel is held to it both ways: a list by actors alone gives
//! nobody more, and the list that is built gives everything.

use reference::calls::cut;
use reference::generate::{list_by, potential_case, PotentialCase, Rng};
use reference::table::{domains, rights};
use reference::words::hex;
use reference::{grants_for_all, potential_rights};

use line::cases::random::rng_for;
use line::judging::compare::first_unequal;
use line::judging::panics::or_panic;
use line::judging::trying::{try_all, Draws, Met};
use line::kernels::boundary::{Potential, PROVED};
use line::kernels::lent::{table_left, words_here};
use line::text::explain::counted;

/// The codes of the function.
const CODES: [u32; 7] = [0, 2, 3, 4, 5, 6, 32];

/// The sizes that tables are drawn in: the most domains and endpoints.
const SIZES: [(usize, usize); 4] = [(16, 2), (4, 2), (3, 1), (8, 0)];

/// The longest list that is run to stay within the potential rights, in words.
const WORDS_MAX: usize = 60;

/// What must be met.
pub fn met() -> Met {
    Met::codes("potential rights with code", CODES).and(Met::of(&[
        "a table with more than is held",
        "a table where more needs others to act",
        "a right given by a random list of the actors",
        "a call of a list that is built to give all",
    ]))
}

/// Tries tables; the first with which something is wrong.
pub fn try_potentials(potential: Potential, draws: &Draws, met: &mut Met) -> Result<(), String> {
    let found = try_all("potential rights", draws, met, |number, met| {
        let rng = &mut rng_for(draws.seed.rotate_left(24), number);
        let (n, m) = SIZES[(number % SIZES.len() as u64) as usize];
        let case = potential_case(rng, n, m);
        let judged = judged(potential, &case, rng, met);
        judged.map_err(|why| with_words(&case, &why))
    });
    found.map_err(|found| found.report("the potential rights of table", "tables", draws))
}

fn judged(
    potential: Potential,
    case: &PotentialCase,
    rng: &mut Rng,
    met: &mut Met,
) -> Result<(), String> {
    let asked = words_here(&case.space, |space| {
        potential(&case.table, case.members, space)
    });
    let (code, left) = asked.map_err(String::from)?;
    let mut wanted = case.space.clone();
    let right = or_panic(|| potential_rights(&case.table, case.members, &mut wanted))?;
    if code != right {
        return Err(format!("the kernel answers {code}, the reference {right}"));
    }
    if let Some(place) = first_unequal(&left, &wanted) {
        return Err(format!(
            "word {place}: the kernel leaves {:X}, the reference {:X}",
            left[place], wanted[place]
        ));
    }
    met.add_code("potential rights with code", code, 1);
    match code {
        0 => bounds_runs(case, &left, rng, met),
        _ => Ok(()),
    }
}

/// That a list by actors stays within the potential rights, and that the list that is
/// built for them gives all.
fn bounds_runs(
    case: &PotentialCase,
    left: &[u32],
    rng: &mut Rng,
    met: &mut Met,
) -> Result<(), String> {
    let held = sets(&case.table);
    let list = list_by(rng, &case.table, case.members, WORDS_MAX);
    let after = sets(&table_left(&PROVED, &case.table, &list)?);
    if let Some(place) = (0..after.len()).find(|&place| after[place] & !left[place] != 0) {
        return Err(format!(
            "a list by the actors gives the set {:X} at {place}, above {:X}: {}",
            after[place],
            left[place],
            hex(&list)
        ));
    }
    let built = grants_for_all(&case.table, case.members);
    if sets(&table_left(&PROVED, &case.table, &built)?) != left {
        return Err(format!("the built list doesn't give all: {}", hex(&built)));
    }
    let calls = cut(&built).len() as u64;
    met.add("a call of a list that is built to give all", calls);
    met.add("a table with more than is held", held != left);
    let gained = after
        .iter()
        .zip(&held)
        .filter(|(after, held)| *after & !*held != 0);
    let gained = gained.count() as u64;
    met.add("a right given by a random list of the actors", gained);
    met.add(
        "a table where more needs others to act",
        needs_others(case, left),
    );
    Ok(())
}

/// Whether all domains together could bring about more than the actors.
fn needs_others(case: &PotentialCase, left: &[u32]) -> bool {
    let mut with_all = vec![0; left.len()];
    potential_rights(&case.table, !(!0 << domains(&case.table)), &mut with_all);
    with_all != left
}

/// The rights of everybody on everybody, as the potential ones are.
fn sets(table: &[u32]) -> Vec<u32> {
    let n = domains(table);
    let pairs = (0..n * n).map(|pair| rights(table, pair / n, pair % n));
    pairs.collect()
}

fn with_words(case: &PotentialCase, why: &str) -> String {
    format!(
        "{why}\nActors {:#b}, {} lent, and the table:\n{}",
        case.members,
        counted(case.space.len(), "word"),
        hex(&case.table)
    )
}

#[cfg(test)]
mod tests {
    use super::*;
    use line::kernels::boundary::potential;
    use line::trial::draws;

    fn reported(wrong: Potential) -> String {
        let found = try_potentials(wrong, &draws(0..3000), &mut met());
        found.expect_err("it is found")
    }

    #[test]
    fn the_proved_function_does_not_differ_and_everything_is_met() {
        let mut met = met();
        assert_eq!(try_potentials(potential, &draws(0..3000), &mut met), Ok(()));
        assert_eq!(met.missing(), [""; 0]);
    }

    #[test]
    fn a_wrong_one_is_found() {
        let outsiders = reported(|table, _, space| potential(table, 1, space));
        assert!(outsiders.contains("\n  word ") || outsiders.contains("\n  the kernel answers"));
        let refused = reported(|table, actors, space| {
            let code = potential(table, actors, space);
            if let (32, Some(word)) = (code, space.first_mut()) {
                *word ^= 1;
            }
            code
        });
        assert!(
            refused.contains("\n  word 0: the kernel leaves"),
            "{refused}"
        );
        let code = reported(|table, actors, space| potential(table, actors, space) % 32);
        assert!(
            code.contains("the kernel answers 0, the reference 32"),
            "{code}"
        );
    }
}
