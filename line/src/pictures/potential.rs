//! What could ever come about: the rights that any list of calls could give, as the proved
//! function reports them, with lists that would do it.

use reference::calls::cut;
use reference::grants_for;
use reference::table::{domains, rights};

use crate::kernels::boundary::{potential, PROVED};
use crate::kernels::lent::table_left;
use crate::pictures::chains::{actors, in_a_row};
use crate::text::explain::{call_in_words, counted, rights_in_words};
use crate::text::names::Names;

/// For so many pairs of domains the calls are printed, and so many of them each.
const PAIRS_MAX: usize = 40;
const CALLS_MAX: usize = 12;

/// A holder that could come to more rights on a target than it has, if all act. By its own
/// calls alone nobody ever does, since a grant gives what its caller has.
struct More {
    holder: usize,
    target: usize,
    held: u32,
    could: u32,
}

/// What could ever come about in an accepted table: each holder and target that could come
/// to more than is held, and by which calls of whom.
pub fn potential_in_words(table: &[u32], names: &Names) -> String {
    let more = more_than_held(table);
    let mut text = "Rights that calls could ever give:\n".to_string();
    for pair in more.iter().take(PAIRS_MAX) {
        text += &pair.with_calls(table, names);
    }
    let others = more.get(PAIRS_MAX..).unwrap_or_default();
    for pair in others {
        text += &format!("{}\n", pair.in_words(names));
    }
    if !others.is_empty() {
        let others = counted(others.len(), "pair");
        text += &format!("  (the calls for the last {others} aren't printed)\n");
    }
    match more.is_empty() {
        true => text + "  none: no list of calls gives anybody more\n",
        false => text + "  no list of calls gives anybody else more\n",
    }
}

fn more_than_held(table: &[u32]) -> Vec<More> {
    let n = domains(table);
    let could = could_hold(table);
    let pairs = (0..n * n).map(|pair| More {
        holder: pair / n,
        target: pair % n,
        held: rights(table, pair / n, pair % n),
        could: could[pair],
    });
    pairs.filter(|pair| pair.could != pair.held).collect()
}

/// The potential rights of an accepted table where all domains act, those of holder h on
/// target g at h × n + g.
pub fn could_hold(table: &[u32]) -> Vec<u32> {
    let n = domains(table);
    let mut sets = vec![0; n * n];
    potential(table, !(!0 << n), &mut sets);
    sets
}

impl More {
    fn in_words(&self, names: &Names) -> String {
        format!(
            "  {} on {}: holds {}; could come to {}",
            names.domain(self.holder),
            names.domain(self.target),
            or_nothing(self.held),
            or_nothing(self.could)
        )
    }

    fn with_calls(&self, table: &[u32], names: &Names) -> String {
        let (everybody, wanted) = (!(!0 << domains(table)), self.could & !self.held);
        let list = grants_for(table, everybody, self.holder, self.target, wanted);
        match list.filter(|list| self.comes_by(table, list)) {
            Some(list) => {
                let by = actors(&list).into_iter().map(|actor| names.domain(actor));
                let by = in_a_row(by.collect());
                let calls = calls(&list, names);
                format!("{}, by calls of {by}\n{calls}", self.in_words(names))
            }
            None => format!("{}\n    (no list was found)\n", self.in_words(names)),
        }
    }

    /// Whether the proved kernel, run on the list, leaves the rights.
    fn comes_by(&self, table: &[u32], list: &[u32]) -> bool {
        let left = table_left(&PROVED, table, list);
        left.is_ok_and(|left| rights(&left, self.holder, self.target) & self.could == self.could)
    }
}

fn or_nothing(set: u32) -> String {
    match set {
        0 => "nothing".to_string(),
        set => rights_in_words(set),
    }
}

/// The calls of a list, each in a line.
fn calls(list: &[u32], names: &Names) -> String {
    let calls = cut(list);
    let printed = calls.iter().take(CALLS_MAX);
    let mut text: String = printed
        .map(|call| format!("    {}\n", call_in_words(call, names)))
        .collect();
    if calls.len() > CALLS_MAX {
        text += &format!(
            "    and {} more\n",
            counted(calls.len() - CALLS_MAX, "call")
        );
    }
    text
}

#[cfg(test)]
mod tests {
    use super::*;
    use reference::example::TABLE_T;
    use reference::generate::{chained_table, Rng};

    #[test]
    fn what_the_worked_example_could_come_to() {
        let printed = potential_in_words(&TABLE_T, &Names::none());
        let wanted = "  domain 0 on domain 2: holds nothing; could come to SEND+GRANT+REMOVE, \
                      by calls of domain 1\n    domain 1 grants domain 0 SEND+GRANT+REMOVE on \
                      domain 2\n";
        assert!(printed.contains(wanted), "{printed}");
        let named = Names::given("domain 0 link\ndomain 2 drives");
        let printed = potential_in_words(&TABLE_T, &named);
        assert!(printed.contains("  domain 0 (link) on domain 2 (drives): holds nothing"));
        assert!(printed.contains("    domain 1 grants domain 0 (link) SEND+GRANT+REMOVE"));
    }

    /// By calls of its own alone nobody comes to more.
    #[test]
    fn nobody_comes_to_more_by_itself() {
        let mut rng = Rng::new(21);
        for _ in 0..300 {
            let table = chained_table(&mut rng, 6, 1);
            let n = domains(&table);
            let mut sets = vec![0; n * n];
            for pair in 0..n * n {
                assert_eq!(potential(&table, 1 << (pair / n), &mut sets), 0);
                assert_eq!(sets[pair], rights(&table, pair / n, pair % n));
            }
        }
    }

    /// Domain 0 has all rights on everybody and could give them to everybody.
    #[test]
    fn every_pair_is_printed_and_the_calls_of_the_first_forty() {
        let mut table = vec![0x1000_0800];
        table.extend([0x2000_000F; 8]);
        table.extend([0x2000_0000; 56]);
        let printed = potential_in_words(&table, &Names::none());
        assert_eq!(printed.matches("; could come to ").count(), 56);
        assert_eq!(printed.matches(", by calls of ").count(), 40);
        let end = "\n  domain 7 on domain 7: holds nothing; could come to SEND+GRANT+REMOVE+\
                   REVOKE\n  (the calls for the last 16 pairs aren't printed)\n  no list of calls \
                   gives anybody else more\n";
        assert!(printed.ends_with(end), "{printed}");
    }

    #[test]
    fn without_grant_nothing_comes_about() {
        let mut table = TABLE_T;
        table[6] = 0x2000_0005;
        let printed = potential_in_words(&table, &Names::none());
        assert!(
            printed.ends_with("  none: no list of calls gives anybody more\n"),
            "{printed}"
        );
    }
}
