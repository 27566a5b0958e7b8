//! Components (document 02, request (j): groups, and walls that no list can open): what
//! the proved function says of them beside the reference, and what they keep apart
//! in a run.

use std::collections::BTreeSet;

use reference::table::domains;
use reference::{check_table, component, influences};

use crate::cases::Case;
use crate::judging::compare::component_isolation;
use crate::kernels::boundary;
use crate::kernels::lent::Ran;

/// The code for a domain that isn't below n.
const NOT_A_DOMAIN: u32 = 32;

/// Compares what the proved function says of a number's component in any words as a
/// table with the reference.
pub fn is_component(table: &[u32], domain: u32) -> Result<(), String> {
    let wanted = match check_table(table) {
        0 if domain as usize >= domains(table) => (NOT_A_DOMAIN, 0),
        0 => {
            let members = component(table, domain as usize);
            (0, members.iter().map(|member| 1 << member).sum())
        }
        code => (code, 0),
    };
    let said = boundary::component(table, domain);
    match said == wanted {
        true => Ok(()),
        false => Err(format!(
            "the component of {domain} is given as code {} with members {:#b}, it should be code \
             {} with {:#b}",
            said.0, said.1, wanted.0, wanted.1
        )),
    }
}

/// That a run that was not refused kept components apart: nobody influences one outside
/// its own at the start, and a domain sees the same without the calls from outside. The
/// number of calls that were purged.
pub fn kept_apart(case: &Case, ran: &Ran, domain: usize) -> Result<u64, String> {
    let n = domains(&case.table);
    let mut left: BTreeSet<usize> = (0..n).collect();
    while let Some(&first) = left.first() {
        let group = component(&case.table, first);
        for &u in &group {
            let outside = (0..n).find(|v| influences(&ran.table, u, *v) && !group.contains(v));
            if let Some(v) = outside {
                return Err(format!(
                    "after the list domain {u} influences domain {v}, outside its component at the start"
                ));
            }
        }
        left = &left - &group;
    }
    Ok(component_isolation(case, ran, domain)?.by_domains as u64)
}

#[cfg(test)]
mod tests {
    use super::*;
    use crate::judging::variants::case_of;
    use crate::kernels::boundary::PROVED;
    use crate::kernels::lent::run_here;
    use crate::text::input::Input;
    use reference::example::TABLE_T;
    use reference::generate::{list, walled_table, Rng};

    #[test]
    fn any_words_and_any_number_are_answered() {
        let mut rng = Rng::new(3);
        for _ in 0..2000 {
            let table = walled_table(&mut rng, 8, 2);
            for domain in [
                0,
                domains(&table) as u32 - 1,
                domains(&table) as u32,
                u32::MAX,
            ] {
                assert_eq!(is_component(&table, domain), Ok(()));
                assert_eq!(is_component(&table[1..], domain), Ok(()));
            }
        }
    }

    #[test]
    fn a_right_across_a_wall_is_found() {
        let mut rng = Rng::new(4);
        let mut purged = 0;
        for _ in 0..500 {
            let table = walled_table(&mut rng, 6, 3);
            let list = list(&mut rng, &table, 30);
            let case = case_of(&Input { table, list });
            let ran = run_here(&PROVED, &case).unwrap();
            let domain = rng.below(domains(&case.table));
            purged += kept_apart(&case, &ran, domain).unwrap();
        }
        assert!(purged > 100, "{purged}");
        let mut apart = TABLE_T.to_vec();
        apart[6] = 0x2000_0000;
        let case = case_of(&Input {
            table: apart,
            list: Vec::new(),
        });
        let mut ran = run_here(&PROVED, &case).unwrap();
        ran.table[6] = 0x2000_0001;
        let said = kept_apart(&case, &ran, 0).unwrap_err();
        assert!(said.contains("domain 1 influences domain 2"), "{said}");
    }
}
