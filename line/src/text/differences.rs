//! What differs between the table of a card and the one that was planned, in words.

use std::fmt::{self, Display};

use reference::table::{
    capacity, domains, endpoint_words, endpoints, lost, name, owner, rights, waiting, SLOTS_PLACE,
};
use reference::words::content;

use crate::text::explain::{counted, rights_in_words};
use crate::text::names::Names;

/// How a part of the card differs from the plan.
#[derive(Debug, Clone, Copy, PartialEq, Eq)]
pub enum How {
    /// The card alone has it.
    Added,
    /// The plan alone has it.
    Lost,
    /// Both have it, each in its own way.
    Altered,
}

/// One difference, and what it is about.
#[derive(Debug, Clone, PartialEq, Eq)]
pub struct Difference {
    pub how: How,
    pub what: String,
}

impl Display for Difference {
    fn fmt(&self, to: &mut fmt::Formatter) -> fmt::Result {
        let how = match self.how {
            How::Added => "added",
            How::Lost => "lost",
            How::Altered => "altered",
        };
        write!(to, "{how:<7}  {}", self.what)
    }
}

impl Difference {
    fn altered(what: String) -> Difference {
        let how = How::Altered;
        Difference { how, what }
    }
}

/// Returns what differs between two accepted tables; nothing where all their words are equal.
pub fn differences(card: &[u32], plan: &[u32], names: &Names) -> Vec<Difference> {
    let mut all = sizes(card, plan);
    let n = domains(card).max(domains(plan));
    let pairs = (0..n * n).map(|pair| (pair / n, pair % n));
    all.extend(pairs.filter_map(|pair| rights_differ(card, plan, pair, names)));
    let m = endpoints(card).max(endpoints(plan));
    all.extend((0..m).flat_map(|endpoint| endpoint_differs(card, plan, endpoint, names)));
    all
}

/// Says which of the tables has more domains or endpoints.
fn sizes(card: &[u32], plan: &[u32]) -> Vec<Difference> {
    let both = [
        ("domain", domains(card), domains(plan)),
        ("endpoint", endpoints(card), endpoints(plan)),
    ];
    let differing = both.into_iter().filter(|(_, card, plan)| card != plan);
    let said = differing.map(|(one, card, plan)| {
        let size = counted(card, one);
        Difference::altered(format!("the table: {size}, in the plan {plan}"))
    });
    said.collect()
}

/// The rights of a pair, none where the table hasn't got both.
fn set(table: &[u32], (holder, target): (usize, usize)) -> u32 {
    match holder.max(target) < domains(table) {
        true => rights(table, holder, target),
        false => 0,
    }
}

fn rights_differ(
    card: &[u32],
    plan: &[u32],
    pair: (usize, usize),
    names: &Names,
) -> Option<Difference> {
    let (there, planned) = (set(card, pair), set(plan, pair));
    let of_whom = format!("{} on {}", names.domain(pair.0), names.domain(pair.1));
    let (more, less) = (there & !planned, planned & !there);
    let one = |how, set| {
        let what = format!("{} of {of_whom}", rights_in_words(set));
        Some(Difference { how, what })
    };
    match (more, less) {
        (0, 0) => None,
        (_, 0) => one(How::Added, more),
        (0, _) => one(How::Lost, less),
        _ => Some(Difference::altered(format!(
            "the rights of {of_whom}: {}, in the plan {}",
            rights_in_words(there),
            rights_in_words(planned)
        ))),
    }
}

fn endpoint_differs(card: &[u32], plan: &[u32], endpoint: usize, names: &Names) -> Vec<Difference> {
    let alone = |table: &[u32]| {
        let what = names.endpoint(endpoint);
        format!("{what}: {}", facts(table, endpoint, names).join(", "))
    };
    let one = |how, what| vec![Difference { how, what }];
    match (endpoint < endpoints(card), endpoint < endpoints(plan)) {
        (true, false) => return one(How::Added, alone(card)),
        (false, true) => return one(How::Lost, alone(plan)),
        _ => {}
    }
    let both = facts(card, endpoint, names)
        .into_iter()
        .zip(facts(plan, endpoint, names));
    let differing = both.filter(|(there, planned)| there != planned);
    let said = differing.map(|(there, planned)| {
        let what = names.endpoint(endpoint);
        Difference::altered(format!("{what}: {there}, in the plan {planned}"))
    });
    said.collect()
}

/// What an endpoint's words say, one fact each: all of the words and nothing else.
fn facts(table: &[u32], endpoint: usize, names: &Names) -> Vec<String> {
    let slots = &endpoint_words(table, endpoint)[SLOTS_PLACE..];
    let messages: Vec<String> = slots
        .iter()
        .take(waiting(table, endpoint))
        .map(|&slot| content(slot).to_string())
        .collect();
    vec![
        format!("owner {}", names.domain(owner(table, endpoint))),
        format!("capacity {}", capacity(table, endpoint)),
        format!("name {}", name(table, endpoint)),
        match messages.len() {
            0 => "nothing waiting".to_string(),
            _ => format!("waiting {}", messages.join(" ")),
        },
        format!("{} lost", lost(table, endpoint)),
    ]
}

/// How many differences there are of each kind, in one line.
pub fn summary(all: &[Difference]) -> String {
    let count = |how| all.iter().filter(|one| one.how == how).count();
    let kinds = [
        (How::Added, "added"),
        (How::Lost, "lost"),
        (How::Altered, "altered"),
    ];
    let parts: Vec<String> = kinds
        .into_iter()
        .filter(|&(how, _)| count(how) > 0)
        .map(|(how, word)| format!("{} {word}", count(how)))
        .collect();
    format!("{}: {}", counted(all.len(), "difference"), parts.join(", "))
}

#[cfg(test)]
mod tests {
    use super::*;
    use crate::text::described;
    use crate::text::input::Input;
    use reference::check_table;
    use reference::generate::{self, Rng};

    const PLAN: &str = "\
domain link
domain loader
domain drives
endpoint routes owner loader capacity 4 name 17
endpoint belts owner drives capacity 8 name 18 lost 3 waiting 5 6
rights link on loader: SEND
rights loader on drives: SEND+GRANT
rights loader on link: SEND
";

    fn said(card: &str) -> Vec<String> {
        let read = |text: &str| described::read(text).unwrap();
        let plan = read(PLAN);
        let table = |bytes: &[u8]| Input::parse(bytes).unwrap().table;
        let (card, planned) = (table(&read(card).bytes), table(&plan.bytes));
        let all = differences(&card, &planned, &plan.names);
        all.iter().map(Difference::to_string).collect()
    }

    #[test]
    fn rights_are_added_lost_or_altered() {
        assert!(said(PLAN).is_empty());
        let card = PLAN
            .replace(
                "rights link on loader: SEND",
                "rights link on loader: SEND+GRANT",
            )
            .replace(
                "rights loader on drives: SEND+GRANT",
                "rights loader on drives: REMOVE",
            )
            .replace("rights loader on link: SEND\n", "");
        let wanted = [
            "added    GRANT of domain 0 (link) on domain 1 (loader)",
            "lost     SEND of domain 1 (loader) on domain 0 (link)",
            "altered  the rights of domain 1 (loader) on domain 2 (drives): REMOVE, in the plan \
             SEND+GRANT",
        ];
        assert_eq!(said(&card), wanted);
    }

    #[test]
    fn endpoints_are_altered_in_each_of_their_facts() {
        let card = PLAN.replace(
            "owner drives capacity 8 name 18 lost 3 waiting 5 6",
            "owner link capacity 2 name 19 waiting 6 5",
        );
        let belts = |said: &str| format!("altered  endpoint 1 (belts): {said}");
        let wanted = [
            belts("owner domain 0 (link), in the plan owner domain 2 (drives)"),
            belts("capacity 2, in the plan capacity 8"),
            belts("name 19, in the plan name 18"),
            belts("waiting 6 5, in the plan waiting 5 6"),
            belts("0 lost, in the plan 3 lost"),
        ];
        assert_eq!(said(&card), wanted);
    }

    #[test]
    fn tables_of_other_sizes_are_compared_by_what_they_have() {
        let card = "domain link\ndomain loader\ndomain drives\ndomain spare\n\
                    endpoint routes owner loader capacity 4 name 17\n\
                    rights link on loader: SEND\nrights loader on drives: SEND+GRANT\n\
                    rights loader on link: SEND\nrights spare on link: SEND";
        let wanted = [
            "altered  the table: 4 domains, in the plan 3",
            "altered  the table: 1 endpoint, in the plan 2",
            "added    SEND of domain 3 on domain 0 (link)",
            "lost     endpoint 1 (belts): owner domain 2 (drives), capacity 8, name 18, waiting 5 \
             6, 3 lost",
        ];
        assert_eq!(said(card), wanted);
    }

    #[test]
    fn every_word_that_differs_is_a_difference() {
        let mut rng = Rng::new(71);
        let mut differing = 0;
        for _ in 0..2000 {
            let card = generate::table(&mut rng, 3, 2);
            let mut plan = card.clone();
            let place = rng.below(plan.len());
            plan[place] ^= 1 << rng.below(8);
            if check_table(&plan) == 0 {
                let all = differences(&card, &plan, &Names::none());
                assert_eq!(all.len(), 1, "{card:08X?} {plan:08X?}");
                differing += 1;
            }
            assert!(differences(&card, &card, &Names::none()).is_empty());
        }
        assert!(differing > 200, "{differing}");
    }

    #[test]
    fn what_differs_is_counted_by_kind() {
        let one = |how| Difference {
            how,
            what: String::new(),
        };
        let all = [How::Added, How::Altered, How::Added].map(one);
        assert_eq!(summary(&all), "3 differences: 2 added, 1 altered");
        assert_eq!(summary(&all[..1]), "1 difference: 1 added");
    }
}
