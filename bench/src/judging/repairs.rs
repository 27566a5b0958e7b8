//! Repairs of worn tables (document 02, request (k)): the proved function beside the
//! reference on random damage. What comes of a repair passes the table's check, and
//! the list of what was altered puts the old table back.

use reference::generate::{repair_case, RepairCase};
use reference::repair::{undo, PAIR_WORDS};
use reference::words::{hex, to_bytes};

use line::cases::random::rng_for;
use line::judging::compare::first_unequal;
use line::judging::panics::or_panic;
use line::judging::trying::{try_all, Draws, Met};
use line::kernels::boundary::{Repair, PROVED};
use line::kernels::lent::{words_here, Failure};
use line::text::explain::counted;

/// The codes of a repair.
const CODES: [u32; 3] = [0, 33, 34];

/// The sizes that tables are drawn in: the most domains and endpoints.
const SIZES: [(usize, usize); 4] = [(16, 32), (4, 4), (3, 2), (1, 1)];

/// What must be met.
pub fn met() -> Met {
    Met::codes("repair code", CODES).and(Met::of(&[
        "a word repaired",
        "a repair of a sound table",
        "a repair with a list just long enough",
        "a repair with a list one word too short",
    ]))
}

fn count(met: &mut Met, case: &RepairCase, done: &Repaired) {
    met.add_code("repair code", done.code, 1);
    met.add("a word repaired", done.altered);
    let (pairs, length) = (PAIR_WORDS * done.altered as usize, case.list.len());
    met.add("a repair of a sound table", done.code == 0 && pairs == 0);
    let just_enough = done.code == 0 && pairs > 0 && pairs == length;
    met.add("a repair with a list just long enough", just_enough);
    let one_short = done.code == 34 && length + 1 == needed(case);
    met.add("a repair with a list one word too short", one_short);
}

/// The words that a list needs for a table.
fn needed(case: &RepairCase) -> usize {
    let mut list = vec![0; PAIR_WORDS * case.table.len()];
    let (_, altered) = reference::repair(&mut case.table.clone(), &mut list);
    PAIR_WORDS * altered as usize
}

/// What a repair answers and leaves.
#[derive(Debug, Clone, PartialEq, Eq)]
struct Repaired {
    code: u32,
    altered: u32,
    table: Vec<u32>,
    list: Vec<u32>,
}

/// Tries repairs; the first that is wrong, with its words.
pub fn try_repairs(repair: Repair, draws: &Draws, met: &mut Met) -> Result<(), String> {
    let found = try_all("repairs", draws, met, |number, met| {
        let case = case_of(draws.seed, number);
        let done = repair_here(repair, &case).map_err(String::from)?;
        let judged = judged(&case, &done);
        judged.map_err(|why| with_words(&case, &why))?;
        count(met, &case, &done);
        Ok(())
    });
    found.map_err(|found| found.report("repair", "tables", draws))
}

fn case_of(seed: u64, number: u64) -> RepairCase {
    let rng = &mut rng_for(seed.rotate_left(8), number);
    let (n, m) = SIZES[(number % SIZES.len() as u64) as usize];
    repair_case(rng, n, m)
}

/// What the function makes of words with others around them.
fn repair_here(repair: Repair, case: &RepairCase) -> Result<Repaired, Failure> {
    let ((inner, list), table) = words_here(&case.table, |table| {
        let inner = words_here(&case.list, |list| repair(table, list));
        match inner {
            Ok((answer, list)) => (Ok(answer), list),
            Err(failure) => (Err(failure), Vec::new()),
        }
    })?;
    let (code, altered) = inner?;
    Ok(Repaired {
        code,
        altered,
        table,
        list,
    })
}

/// That a repair is the reference's, that what it leaves is sound, and that its list
/// puts the old table back.
fn judged(case: &RepairCase, done: &Repaired) -> Result<(), String> {
    let wanted = or_panic(|| {
        let (mut table, mut list) = (case.table.clone(), case.list.clone());
        let (code, altered) = reference::repair(&mut table, &mut list);
        Repaired {
            code,
            altered,
            table,
            list,
        }
    })?;
    if let Some(why) = difference(done, &wanted) {
        return Err(why);
    }
    if done.code != 0 {
        return Ok(());
    }
    match PROVED.table_check(&to_bytes(&done.table)) {
        0 => {}
        code => return Err(format!("the repaired table is refused with {code}")),
    }
    let mut old = done.table.clone();
    undo(&mut old, &done.list[..PAIR_WORDS * done.altered as usize]);
    match old == case.table {
        true => Ok(()),
        false => Err("the list does not put the old table back".to_string()),
    }
}

fn difference(done: &Repaired, wanted: &Repaired) -> Option<String> {
    if (done.code, done.altered) != (wanted.code, wanted.altered) {
        return Some(format!(
            "the kernel answers code {} with {} altered, the reference code {} with {}",
            done.code, done.altered, wanted.code, wanted.altered
        ));
    }
    let unequal = |what, done: &[u32], wanted: &[u32]| {
        let place = first_unequal(done, wanted)?;
        Some(format!(
            "word {place} of the {what}: the kernel leaves {:08X}, the reference {:08X}",
            done[place], wanted[place]
        ))
    };
    unequal("table", &done.table, &wanted.table)
        .or_else(|| unequal("list", &done.list, &wanted.list))
}

fn with_words(case: &RepairCase, why: &str) -> String {
    format!(
        "{why}\nThe table before the repair, and a list of {}:\n{}",
        counted(case.list.len(), "word"),
        hex(&case.table)
    )
}

#[cfg(test)]
mod tests {
    use super::*;
    use line::kernels::boundary::repair;
    use line::trial::draws;

    fn reported(wrong: Repair) -> String {
        let found = try_repairs(wrong, &draws(0..2000), &mut met());
        found.expect_err("it is found")
    }

    #[test]
    fn the_proved_repair_does_not_differ_and_everything_is_met() {
        let mut met = met();
        assert_eq!(try_repairs(repair, &draws(0..5000), &mut met), Ok(()));
        assert_eq!(met.missing(), [""; 0]);
    }

    #[test]
    fn a_wrong_repair_is_found() {
        let count = reported(|table, list| {
            let (code, altered) = repair(table, list);
            (code, altered + u32::from(altered > 3))
        });
        assert!(
            count.contains("\n  the kernel answers code 0 with"),
            "{count}"
        );
        let adds = reported(|table, list| {
            let before = table.to_vec();
            let answer = repair(table, list);
            if table[1] != before[1] {
                table[1] |= 1;
            }
            answer
        });
        assert!(adds.contains("word 1 of the table: the kernel leaves 20000001"));
        let list = reported(|table, list| {
            let answer = repair(table, list);
            if let (33, Some(word)) = (answer.0, list.first_mut()) {
                *word ^= 1;
            }
            answer
        });
        assert!(list.contains("word 0 of the list"), "{list}");
    }

    #[test]
    fn a_list_that_does_not_put_the_table_back_is_found() {
        let case = RepairCase {
            table: vec![0x1000_0100, 0x2000_0010],
            list: vec![0; 2],
        };
        let mut done = repair_here(repair, &case).unwrap();
        assert_eq!(judged(&case, &done), Ok(()));
        assert_eq!(done.list, [1, 0x2000_0010]);
        done.list[1] = 0;
        assert!(judged(&case, &done).is_err());
    }
}
