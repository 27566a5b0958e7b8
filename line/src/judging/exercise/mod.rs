//! The exercise: lists made from a table that go through everything which the table
//! allows. They are planned with the reference, which says what each call comes
//! to, so that no rule of the kernel is here a second time.
//!
//! A call that a later paper adds gets its function in `planner` and its place in the
//! lists that it belongs to.

mod fields;
pub mod planner;
mod queues;
mod rights;
mod strangers;

use reference::table::domains;

pub use planner::Planned;

/// The lists for an accepted table, always the same ones.
pub fn exercise(table: &[u32]) -> Vec<Planned> {
    let (grants, grown) = rights::grown(table);
    let mut lists = fields::kinds(table);
    lists.push(fields::most_calls(table));
    lists.extend(fields::names(table));
    lists.extend(fields::numbers(table));
    lists.extend(queues::queues("every queue", table, None));
    lists.extend(grants);
    let what = "every queue, once all rights are granted";
    lists.extend(queues::queues(what, &grown, Some(table)));
    lists.extend(rights::given_up("every right given up", table));
    let what = "every right given up, once all are granted";
    lists.extend(rights::given_up(what, &grown));
    lists.extend(rights::taken_back("every right taken back", table));
    let what = "every right taken back, once all are granted";
    lists.extend(rights::taken_back(what, &grown));
    for domain in 0..domains(table) {
        lists.extend(strangers::strangers(table, domain));
    }
    lists.extend(at_the_top(table));
    for (number, list) in lists.iter_mut().enumerate() {
        list.what = format!("exercise list {number} ({})", list.what);
    }
    lists
}

/// The queues on a copy of the table whose lost counts are one below their top.
fn at_the_top(table: &[u32]) -> Vec<Planned> {
    let copy = queues::one_below_the_top(table);
    queues::queues("every queue, lost counts near their top", &copy, None)
}

#[cfg(test)]
mod tests {
    use super::*;
    use crate::judging::checklist::basis::{Basis, CALL_CODES};
    use crate::text::hex;
    use crate::text::input::Input;
    use reference::calls::{cut, LIST_WORDS_MAX, SEND};
    use reference::example::TABLE_T;
    use reference::generate::{table, table_of, Rng};
    use reference::table::{check_table, endpoints};
    use std::collections::BTreeSet;

    fn basis(lists: &[Planned]) -> Basis {
        Basis::of(lists.iter().map(|list| &list.case))
    }

    #[test]
    fn every_list_runs_on_an_accepted_table_of_any_size() {
        let mut rng = Rng::new(12);
        let mut tables: Vec<_> = (0..40).map(|_| table(&mut rng, 5, 4)).collect();
        tables.push(table_of(&mut rng, 16, 32));
        for table in tables {
            for Planned { what, case } in exercise(&table) {
                assert_eq!(check_table(&case.table), 0, "{what}");
                assert!(case.list.len() <= LIST_WORDS_MAX, "{what}");
                let (mut table, mut answers) = (case.table.clone(), case.answers.clone());
                let ran = reference::run(&mut table, &case.list, &mut answers);
                assert_eq!(ran, (0, cut(&case.list).len() as u32), "{what}");
            }
        }
    }

    #[test]
    fn the_same_table_has_the_same_lists() {
        let words = || -> Vec<_> {
            let lists = exercise(&TABLE_T).into_iter();
            lists.map(|list| (list.what, list.case)).collect()
        };
        assert_eq!(words(), words());
    }

    #[test]
    fn every_code_is_given_on_the_worked_example() {
        let basis = basis(&exercise(&TABLE_T));
        for code in CALL_CODES {
            assert!(basis.refused_by(code) > 0, "{code}");
        }
    }

    #[test]
    fn every_queue_is_filled_overfilled_and_drained_in_order() {
        let basis = basis(&queues::queues("", &TABLE_T, None));
        for (e, at) in basis.at.iter().enumerate() {
            assert!(at.queue.full > 0 && at.queue.emptied > 0, "{e}");
            assert!(at.outsiders > 0, "{e}");
            // Endpoint 1 holds one message.
            assert_eq!(at.queue.in_turn > 0, e == 0);
        }
    }

    #[test]
    fn messages_of_a_list_differ() {
        for list in queues::queues("", &TABLE_T, None) {
            let calls = cut(&list.case.list);
            let own = |call: &&reference::Call| {
                call.kind() == SEND && call.caller() < Some(domains(&TABLE_T) as u32)
            };
            let sent: Vec<_> = calls.iter().filter(own).map(|call| call.second).collect();
            let distinct: BTreeSet<_> = sent.iter().collect();
            assert_eq!(distinct.len(), sent.len());
        }
    }

    #[test]
    fn lost_counts_come_to_their_top_from_one_below() {
        let lists = at_the_top(&TABLE_T);
        let basis = basis(&lists);
        assert!(basis.at.iter().all(|at| at.queue.at_top > 0));
        assert!(basis.at.iter().all(|at| at.queue.full > at.queue.at_top));
    }

    #[test]
    fn on_the_ring_every_right_is_granted_given_up_and_taken_back() {
        let ring = hex::read(include_str!("../../../../balkwizu/examples/ring.txt"))
            .unwrap()
            .bytes;
        let ring = Input::parse(&ring).unwrap().table;
        let basis = basis(&exercise(&ring));
        assert_eq!((basis.on.len(), basis.at.len()), (4, endpoints(&ring)));
        for on in &basis.on {
            assert!(on.given > 0 && on.given_again > 0 && on.given_up > 0);
            assert!(on.taken_back > 0 && on.nothing_to_take > 0);
        }
        let (_, grown) = rights::grown(&ring);
        assert_eq!(grown[1..17], [0x2000_000F; 16]);
    }
}
