//! What the exercise can't show on a table, and why: what could be shown in all, less
//! what it does show.

use reference::table::{capacity, domains, endpoints};

use crate::judging::checklist::basis::{AtEndpoint, Basis, OnTarget, CALL_CODES};
use crate::judging::compare::Purged;
use crate::text::explain::meaning;
use crate::text::names::Names;

/// Things that aren't shown, each in words.
pub type NotShown = Vec<String>;

/// Of check 1: the numbers that no call is refused by.
pub fn numbers(table: &[u32], basis: &Basis) -> NotShown {
    let never = CALL_CODES.filter(|&code| basis.refused_by(code) == 0);
    let unshown = |code| {
        let why = match code {
            17..=19 if endpoints(table) == 0 => "there is no endpoint",
            _ if domains(table) == 1 => "there is one domain only",
            _ => "the rights of this table lead to no such call",
        };
        format!("a call refused with {code} ({}): {why}", meaning(code))
    };
    never.map(unshown).collect()
}

/// Of check 2: queues that go in turn, who may not send, and rights given and given up.
pub fn answers_and_table(table: &[u32], basis: &Basis, list: &Basis, names: &Names) -> NotShown {
    let mut all = NotShown::new();
    if list.calls == 0 {
        all.push("anything by this list: it has no call".into());
    }
    if endpoints(table) == 0 {
        all.push("a look up, a send and a receive that are done: there is no endpoint".into());
    }
    let at = |why: &dyn Fn(usize, &AtEndpoint) -> bool| {
        let all = basis.at.iter().enumerate();
        let all = all.filter(|(e, at)| why(*e, at));
        all.map(|(e, _)| beside(e, names.endpoint_name(e)))
            .collect()
    };
    let one = at(&|e, at| at.queue.in_turn == 0 && capacity(table, e) == 1);
    all.extend(things(
        "messages in turn at endpoint",
        one,
        "its capacity is 1",
    ));
    let none = at(&|e, at| at.queue.in_turn == 0 && capacity(table, e) > 1);
    all.extend(things(
        "messages in turn at endpoint",
        none,
        "nobody may send there",
    ));
    let open = at(&|_, at| at.outsiders == 0);
    all.extend(things(
        "a sender that may not, at endpoint",
        open,
        "everyone may, for good",
    ));
    all.extend(rights(basis, names));
    all
}

fn rights(basis: &Basis, names: &Names) -> NotShown {
    let on = |why: fn(&OnTarget) -> bool| {
        let all = basis.on.iter().enumerate();
        let all = all.filter(|(_, on)| why(on));
        all.map(|(d, _)| beside(d, names.domain_name(d)))
            .collect::<Vec<_>>()
    };
    let never = on(|on| on.given + on.given_again == 0);
    let nothing = on(|on| on.given == 0 && on.given_again != 0);
    let kept = on(|on| on.given_up == 0);
    let fixed = on(|on| on.taken_back == 0);
    let grant = "a grant of rights on domain";
    let mut all = [
        things(grant, never, "nobody can give one"),
        things(grant, nothing, "whoever can be given one has it"),
        things("a right given up on domain", kept, "nobody can give one up"),
        things(
            "a right taken back on domain",
            fixed,
            "nobody can take one back",
        ),
    ]
    .concat();
    let can_give = basis.on.iter().any(|on| on.given + on.given_again != 0);
    if can_give && basis.to_another == 0 {
        all.push("a grant to another domain: who can give has no right on another".into());
    }
    all
}

/// Of check 3: domains for which no call of another domain is purged, in the exercise and
/// in the list that was handed in.
pub fn isolation(
    table: &[u32],
    exercise: &[Purged],
    list: Option<&[Purged]>,
    names: &Names,
) -> NotShown {
    let why = match domains(table) {
        1 => "there is no other domain",
        _ => "every other domain has a right on it for good, so nothing is purged",
    };
    let mut all = things("isolation of domain", nothing_purged(exercise, names), why);
    all.extend(match list {
        Some(list) if domains(table) > 1 => isolation_by_list(list, names),
        _ => NotShown::new(),
    });
    all
}

/// Of check 3, by a list alone.
pub fn isolation_by_list(list: &[Purged], names: &Names) -> NotShown {
    let everyone = "each call of another domain counts for it, so nothing is purged";
    things(
        "by this list, isolation of domain",
        nothing_purged(list, names),
        everyone,
    )
}

/// The domains for which no call of another one is purged.
fn nothing_purged(purged: &[Purged], names: &Names) -> Vec<String> {
    let none = purged.iter().enumerate();
    let none = none.filter(|(_, purged)| purged.by_domains == 0);
    none.map(|(domain, _)| beside(domain, names.domain_name(domain)))
        .collect()
}

/// Of check 4: endpoints that nothing was sent to.
pub fn counts(table: &[u32], basis: &Basis, names: &Names) -> NotShown {
    if endpoints(table) == 0 {
        return vec!["counts of a queue: there is no endpoint".to_string()];
    }
    things(
        "counts of endpoint",
        silent(basis, names),
        "nobody may send there",
    )
}

/// The endpoints that nothing was sent to.
fn silent(basis: &Basis, names: &Names) -> Vec<String> {
    let silent = basis.at.iter().enumerate();
    let silent = silent.filter(|(_, at)| at.queue.sent == 0);
    silent
        .map(|(e, _)| beside(e, names.endpoint_name(e)))
        .collect()
}

/// Of check 1, by the words that one run left: what only a kernel at hand shows, and the
/// numbers that this list has no refusal by.
pub fn refusals_by_one_run(basis: &Basis) -> NotShown {
    let mut all = vec![
        "damaged tables, scrambled lists and the limits of the entry: one run of one list was \
         read back"
            .to_string(),
        "a fault or a loop: a run that was read back came to its end".to_string(),
        "that the list and the words around those lent are as they were: they aren't read back"
            .to_string(),
    ];
    let never = CALL_CODES.filter(|&code| basis.refused_by(code) == 0);
    let never = never.map(|code| code.to_string()).collect();
    all.extend(things("a refusal by the code", never, "this list has none"));
    all
}

/// Of check 2, by the words that one run left.
pub fn answers_by_one_run(basis: &Basis) -> NotShown {
    let mut all = vec![
        "the words of the holders: they aren't read back".to_string(),
        "what this table allows beyond this list: the exercise wasn't run on the controller"
            .to_string(),
    ];
    let never = basis.never_done();
    if !never.is_empty() {
        all.push(format!(
            "calls that are done of the kinds {}: this list has none",
            never.join(", ")
        ));
    }
    all
}

/// Of check 4, by the words that one run left.
pub fn counts_by_one_run(basis: &Basis, names: &Names) -> NotShown {
    let mut all = vec!["the number of calls that the run returned: it isn't read back".to_string()];
    all.extend(things(
        "counts of endpoint",
        silent(basis, names),
        "this list sends nothing there",
    ));
    all
}

/// A number with its name beside it, where it has one.
fn beside(number: usize, name: Option<&str>) -> String {
    match name {
        Some(name) => format!("{number} ({name})"),
        None => number.to_string(),
    }
}

/// One thing that isn't shown of some numbers, and why; nothing where there are none.
fn things(thing: &str, of: Vec<String>, why: &str) -> NotShown {
    let (many, numbers) = match of.as_slice() {
        [] => return NotShown::new(),
        [one] => ("", one.clone()),
        [first @ .., last] => ("s", format!("{} and {last}", first.join(", "))),
    };
    vec![format!("{thing}{many} {numbers}: {why}")]
}

#[cfg(test)]
mod tests {
    use super::*;
    use crate::judging::exercise::exercise;
    use reference::example::TABLE_T;

    /// What isn't shown of answers and table, with a list that has calls.
    fn missing(table: &[u32]) -> NotShown {
        let lists = exercise(table);
        let basis = Basis::of(lists.iter().map(|list| &list.case));
        [
            numbers(table, &basis),
            answers_and_table(table, &basis, &basis, &Names::none()),
            counts(table, &basis, &Names::none()),
        ]
        .concat()
    }

    /// A table of two domains with these rights, and an endpoint of domain 0.
    fn two_domains(rights: [u32; 4], capacity: u32) -> Vec<u32> {
        let mut table = vec![0x1000_0201];
        table.extend(rights.map(|set| 0x2000_0000 | set));
        table.extend([
            0x3000_0001,
            0x4000_0000 | capacity,
            0x5000_0000,
            0x6000_0000,
        ]);
        table.extend([0xF000_0000; 8]);
        table
    }

    #[test]
    fn what_the_worked_example_does_not_allow() {
        let missing = missing(&TABLE_T);
        let unshown = [
            "messages in turn at endpoint 1: its capacity is 1",
            "a grant of rights on domains 0 and 1: nobody can give one",
            "a right given up on domains 0 and 1: nobody can give one up",
            "a right taken back on domains 0, 1 and 2: nobody can take one back",
        ];
        assert_eq!(missing, unshown);
    }

    #[test]
    fn a_table_on_which_all_may_send_and_no_more() {
        let missing = missing(&two_domains([1; 4], 8));
        assert!(
            missing[0].starts_with("a call refused with 17 ("),
            "{missing:?}"
        );
        assert!(missing[0].ends_with(": the rights of this table lead to no such call"));
        assert!(
            missing[1].starts_with("a call refused with 23 ("),
            "{missing:?}"
        );
        assert_eq!(
            missing[2],
            "a sender that may not, at endpoint 0: everyone may, for good"
        );
    }

    #[test]
    fn rights_that_lead_to_nobody_else() {
        // Domain 0 holds all rights on itself alone: it can give to nobody but itself.
        let missing = missing(&two_domains([7, 0, 0, 0], 2));
        let another = "a grant to another domain: who can give has no right on another";
        assert!(
            missing.iter().any(|unshown| unshown == another),
            "{missing:?}"
        );
        let has = "a grant of rights on domain 0: whoever can be given one has it";
        assert!(missing.iter().any(|unshown| unshown == has), "{missing:?}");
    }

    #[test]
    fn isolation_that_holds_since_nothing_is_purged() {
        let some = Purged {
            calls: 3,
            by_domains: 1,
        };
        let strays = Purged {
            calls: 3,
            by_domains: 0,
        };
        let table = two_domains([1; 4], 1);
        assert!(isolation(&table, &[some, some], Some(&[some, some]), &Names::none()).is_empty());
        let unshown = isolation(
            &table,
            &[some, strays],
            Some(&[strays, some]),
            &Names::none(),
        );
        assert!(
            unshown[0].starts_with("isolation of domain 1: every other domain has a right on it")
        );
        assert!(unshown[1].starts_with("by this list, isolation of domain 0: each call of another"));
        assert_eq!(
            isolation(&table, &[some, some], None, &Names::none()),
            NotShown::new()
        );
    }
}
