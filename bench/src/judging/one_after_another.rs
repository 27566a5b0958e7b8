//! Lists run one after another on one table, by every kernel beside the reference.

use reference::table::domains;

use crate::kernels::plain::KERNELS;
use line::cases::Case;
use line::judging::compare::{difference, separate_run};
use line::kernels::boundary::Kernel;
use line::kernels::child;
use line::kernels::lent::Ran;

/// What differs between some kernel's runs of lists and the reference's, the table
/// handed on from each list to the next.
pub fn first_wrong(name: &str, table: &[u32], lists: &[Vec<u32>]) -> Option<String> {
    let runs = match reference_runs(table, lists) {
        Ok(runs) => runs,
        Err(said) => return Some(format!("the reference on {name}: {said}")),
    };
    KERNELS.iter().find_map(|kernel| {
        let said = first_difference(kernel, &runs)?;
        Some(format!("{} on {name}: {said}", kernel.name))
    })
}

/// The reference's runs, with what each is lent.
fn reference_runs(table: &[u32], lists: &[Vec<u32>]) -> Result<Vec<(Case, Ran)>, String> {
    let mut table = table.to_vec();
    let run = |list: &Vec<u32>| {
        let case = Case {
            table: table.clone(),
            list: list.clone(),
            answers: vec![0; 3 * list.len()],
            holders: vec![0; domains(&table)],
        };
        let ran = separate_run(&case)?;
        table.clone_from(&ran.table);
        Ok((case, ran))
    };
    lists.iter().map(run).collect()
}

/// The first difference of a kernel, which is lent the same.
fn first_difference(kernel: &Kernel, runs: &[(Case, Ran)]) -> Option<String> {
    let cases: Vec<&Case> = runs.iter().map(|(case, _)| case).collect();
    let ran = child::runs(kernel, &cases, child::LIMIT);
    let mut beside = ran.into_iter().zip(runs);
    beside.find_map(|(ran, (case, right))| match ran {
        Ok(ran) => difference(case, &ran, right),
        Err(failure) => Some(failure.to_string()),
    })
}

#[cfg(test)]
mod tests {
    use super::*;
    use crate::kernels::plain::WRONG;
    use line::kernels::boundary::PROVED;
    use reference::example::{LIST_L, TABLE_T};

    #[test]
    fn the_table_is_handed_on() {
        let runs = reference_runs(&TABLE_T, &[LIST_L.to_vec(), LIST_L.to_vec()]).unwrap();
        assert_eq!(runs[0].0.table, TABLE_T);
        assert_eq!(runs[1].0.table, runs[0].1.table);
        assert_ne!(runs[1].0.table, TABLE_T);
        assert_eq!(first_difference(&PROVED, &runs), None);
    }

    #[test]
    fn a_kernel_that_is_wrong_is_reported() {
        const REMOVE: u32 = 0x7042_0004; // domain 1 gives up REMOVE on domain 2
        let runs = reference_runs(&TABLE_T, &[LIST_L.to_vec(), vec![REMOVE]]).unwrap();
        for name in ["wrong-lost-not-counted", "wrong-faults"] {
            let wrong = WRONG.iter().find(|kernel| kernel.name == name).unwrap();
            assert!(first_difference(wrong, &runs).is_some(), "{name}");
        }
        assert_eq!(first_wrong("L on T", &TABLE_T, &[LIST_L.to_vec()]), None);
    }
}
