//! Chains of rights and source sets in words: whether the calls of one domain count for
//! another, in this list or ever, by which rights one has a chain to another, and who joins
//! the source set of a domain along a list.

use reference::calls::cut;
use reference::table::domains;

use crate::judging::chains::{could_ever, Chains, Ever, Hold, Kept, Run, Verdict};
use crate::pictures::groups::groups_in_words;
use crate::text::explain::{call_in_words, counted, rights_in_words};
use crate::text::input::Input;
use crate::text::names::Names;

/// For so many pairs that could come to a chain of rights the calls are printed.
const PAIRS_MAX: usize = 40;

/// How the calls of one domain come to count for another.
#[derive(Clone, Copy, PartialEq, Eq)]
enum Counts {
    Own,
    InThisList,
    Could,
    Never,
}

/// The sign of each in the grid, and what it means.
const HOW: [(Counts, &str, &str); 3] = [
    (Counts::InThisList, "L", "in this list"),
    (Counts::Could, "c", "not in this list, but by other calls"),
    (
        Counts::Never,
        ".",
        "never, whatever calls are made (proved)",
    ),
];

/// An input to be reported on: an accepted table, its list and its names.
pub struct Asked<'a> {
    input: &'a Input,
    names: &'a Names,
    run: Run,
    /// So many calls that are kept are printed at most.
    calls: usize,
}

impl<'a> Asked<'a> {
    pub fn of(input: &'a Input, names: &'a Names, calls: usize) -> Result<Asked<'a>, String> {
        let run = Run::of(&input.table, &input.list)?;
        Ok(Asked {
            input,
            names,
            run,
            calls,
        })
    }

    /// Who influences whom, then why: all chains of rights of the table, the source sets
    /// along the list, and what could ever come about.
    pub fn everything(&self) -> Result<String, String> {
        let parts = [
            self.grid()?,
            self.all_chains()?,
            self.all_sets()?,
            self.all_ever()?,
        ];
        Ok(parts.join("\n"))
    }

    /// Whose calls count for a domain, for whom its own do, and the calls that are kept for
    /// it.
    pub fn one(&self, domain: usize) -> Result<String, String> {
        let counts = self.counts()?;
        let who = self.names.domain(domain);
        let on_it = counts.iter().map(|row| row[domain]).collect::<Vec<_>>();
        let mut text = format!("Influence on {who}: whose calls count for it\n");
        text += &self.by_how(&on_it);
        text += &format!("Influence of {who}: for whom its calls count\n");
        text += &self.by_how(&counts[domain]);
        if !self.run.calls.is_empty() {
            text += "\n";
            text += &self.calls_kept(domain)?;
        }
        Ok(text)
    }

    /// The domains of a row or a column of the grid, by how calls count.
    fn by_how(&self, counts: &[Counts]) -> String {
        let each = HOW.iter().map(|(how, _, words)| {
            let all = (0..counts.len()).filter(|&domain| counts[domain] == *how);
            let row = match all.collect::<Vec<_>>().as_slice() {
                [] => "nobody".to_string(),
                some => self.names.domain_row(some),
            };
            format!("  {words}: {row}\n")
        });
        each.collect()
    }

    /// Who influences whom, by a sign for each pair.
    fn grid(&self) -> Result<String, String> {
        let counts = self.counts()?;
        let each = HOW.map(|(_, sign, words)| format!("  {sign}  {words}\n"));
        let heads: String = (0..counts.len()).map(|to| format!("{to:>3}")).collect();
        let mut text = format!(
            "Influence: whether calls of a domain (row) count for another (column)\n{}  {:8}{heads}\n",
            each.concat(),
            ""
        );
        for (from, row) in counts.iter().enumerate() {
            let sign = |how: &Counts| {
                HOW.iter()
                    .find(|one| one.0 == *how)
                    .map_or("=", |one| one.1)
            };
            let signs: String = row.iter().map(|how| format!("{:>3}", sign(how))).collect();
            let name = self.names.domain_name(from).unwrap_or("");
            text += format!("  from {from:>2} {signs}  {name}").trim_end();
            text += "\n";
        }
        Ok(text)
    }

    /// How the calls of each domain come to count for each other, by the source sets along
    /// the list and the proved function.
    fn counts(&self) -> Result<Vec<Vec<Counts>>, String> {
        let n = domains(&self.input.table);
        let ever = Chains::ever(&self.input.table)?;
        let mut counts = vec![vec![Counts::Never; n]; n];
        for to in 0..n {
            ever.to(to)
                .for_each(|from| counts[from][to] = Counts::Could);
            counts[to][to] = Counts::Own;
            for (call, kept) in self.run.kept_for(to)?.iter().enumerate() {
                match self.run.caller(call) {
                    Some(from) if kept.is_some() && from != to => {
                        if counts[from][to] == Counts::Never {
                            self.run.verdict(from, to)?;
                        }
                        counts[from][to] = Counts::InThisList;
                    }
                    _ => {}
                }
            }
        }
        Ok(counts)
    }

    /// Whether the calls of one domain count for another, in this list or ever, and by
    /// which rights and calls.
    pub fn pair(&self, from: usize, to: usize) -> Result<String, String> {
        let verdict = self.run.verdict(from, to)?;
        let mut text = self.verdict(from, to, &verdict)?;
        let (never, in_list) = (
            matches!(verdict, Verdict::Never { .. }),
            !self.run.calls.is_empty(),
        );
        if from != to && !never {
            text += &self.chain_now(from, to)?;
            text += &self.chain_ever(from, to, &verdict)?;
        }
        if !never {
            text += &self.own_rights(from, to)?;
        }
        if in_list && !never {
            text += &self.after_the_list(from, to)?;
        }
        if in_list {
            text += &self.own_calls(from, to)?;
        }
        if in_list && matches!(verdict, Verdict::InThisList { .. }) {
            text += "\n";
            text += &self.calls_kept(to)?;
        }
        Ok(text)
    }

    fn chain(&self, chain: &[Hold]) -> String {
        let steps = chain.iter().map(|hold| self.hold(hold));
        steps.collect::<Vec<_>>().join(", ")
    }

    fn hold(&self, hold: &Hold) -> String {
        format!(
            "{} has {} on {}",
            self.names.domain(hold.holder),
            rights_in_words(hold.set),
            self.names.domain(hold.target)
        )
    }

    // One pair.

    fn verdict(&self, from: usize, to: usize, verdict: &Verdict) -> Result<String, String> {
        let (who, whom) = (self.names.domain(from), self.names.domain(to));
        Ok(match verdict {
            _ if from == to => {
                format!("{who} is always in its own source set, without any right.\n")
            }
            Verdict::Never { apart } => format!(
                "Never: whatever calls are made, by whomever, nothing that {who} does shows at \
                 {whom}. This is proved.\n{}.\n",
                self.why_never(from, *apart)?
            ),
            Verdict::Could { list } => format!(
                "Not in this list, but it could: by these calls of {}, which the proved kernel \
                 does, {who} is in the source set of {whom}:\n{}",
                self.several(&actors(list)),
                self.list(list)
            ),
            Verdict::InThisList { calls } => {
                let (count, s) = (ranges(calls), if calls.len() == 1 { "s" } else { "" });
                let though = match self.run.first_chain(from, to)? {
                    Some(_) => "",
                    None => ", though no table before, during or after it has a chain of rights",
                };
                format!("In this list: {count} of {who} count{s} for {whom}{though}.\n")
            }
        })
    }

    /// Why what a domain does never shows at another.
    fn why_never(&self, from: usize, apart: bool) -> Result<String, String> {
        if apart {
            return Ok("The two are in connected components that no list can join".to_string());
        }
        let reached: Vec<usize> = Chains::ever(&self.input.table)?.from(from).collect();
        Ok(match reached.is_empty() {
            true => "Nobody can give it a right on another domain".to_string(),
            false => format!(
                "All that it could ever have a chain of rights to is {}",
                self.several(&reached)
            ),
        })
    }

    /// The chain of rights in the table, or in the first table of the run that has one.
    fn chain_now(&self, from: usize, to: usize) -> Result<String, String> {
        let (who, whom) = (self.names.domain(from), self.names.domain(to));
        Ok(match self.run.first_chain(from, to)? {
            Some((0, chain)) => format!(
                "In this table a chain of rights leads from {who} to {whom}: {}.\n",
                self.chain(&chain)
            ),
            Some((calls, chain)) => format!(
                "In this table no chain of rights leads from {who} to {whom}; after call {} one \
                 does: {}.\n",
                calls - 1,
                self.chain(&chain)
            ),
            None => format!("In this table no chain of rights leads from {who} to {whom}.\n"),
        })
    }

    /// The calls that could give a domain a chain of rights to another, where its calls
    /// count though no table of the run has one.
    fn chain_ever(&self, from: usize, to: usize, verdict: &Verdict) -> Result<String, String> {
        let ever = could_ever(&self.input.table, from, to)?;
        let never_had = self.run.first_chain(from, to)?.is_none();
        Ok(match (verdict, ever) {
            (Verdict::InThisList { .. }, Ever::Could { list, chain }) if never_had => format!(
                "One could come by these calls of {}:\n{}Then {}.\n",
                self.several(&actors(&list)),
                self.list(&list),
                self.chain(&chain)
            ),
            _ => String::new(),
        })
    }

    /// What one domain has on another of its own, and could ever come to have.
    fn own_rights(&self, from: usize, to: usize) -> Result<String, String> {
        let table = &self.input.table;
        let (now, ever) = (Chains::now(table)?, Chains::ever(table)?);
        let printed = |set| match set {
            0 => "none".to_string(),
            set => rights_in_words(set),
        };
        let (now, ever) = (now.set(from, to), ever.set(from, to));
        let more = match now == ever {
            true => "and no list of calls gives it more".to_string(),
            false => format!("and calls could ever give it {}", printed(ever)),
        };
        let (who, whom) = (self.names.domain(from), self.names.domain(to));
        Ok(format!(
            "Rights of {who} on {whom} itself: {}, {more}.\n",
            printed(now)
        ))
    }

    /// Domains in a sentence, as `domain 1, domain 2 and domain 3`.
    fn several(&self, domains: &[usize]) -> String {
        in_a_row(domains.iter().map(|&d| self.names.domain(d)).collect())
    }

    fn list(&self, list: &[u32]) -> String {
        let calls = cut(list);
        let each = calls.iter().map(|call| call_in_words(call, self.names));
        each.map(|call| format!("  {call}\n")).collect()
    }

    fn after_the_list(&self, from: usize, to: usize) -> Result<String, String> {
        Ok(match Chains::now(self.run.end())?.chain(from, to)? {
            _ if from == to => String::new(),
            Some(chain) => format!(
                "After the list a chain of rights leads there: {}.\n",
                self.chain(&chain)
            ),
            None => "After the list no chain of rights leads there.\n".to_string(),
        })
    }

    /// How many of the calls of one domain are purged for another.
    fn own_calls(&self, from: usize, to: usize) -> Result<String, String> {
        let kept = self.run.kept_for(to)?;
        let (who, whom) = (self.names.domain(from), self.names.domain(to));
        let made = (0..kept.len()).filter(|call| self.run.caller(*call) == Some(from));
        let made: Vec<bool> = made.map(|call| kept[call].is_some()).collect();
        let purged = made.iter().filter(|kept| !**kept).count();
        let all = counted(made.len(), "call");
        Ok(match purged {
            _ if made.is_empty() => format!("{who} makes no call in the list.\n"),
            0 => format!("Purged for {whom} is nothing that {who} does in the list.\n"),
            some if some < made.len() => {
                format!("Purged for {whom} are {some} of the {all} that {who} makes in the list.\n")
            }
            _ => format!(
                "Purged for {whom} is all that {who} does in the list, {all}: nothing of it shows \
                 there.\n"
            ),
        })
    }

    /// Each call that is kept for a domain, from the last one back, with why.
    fn calls_kept(&self, to: usize) -> Result<String, String> {
        let kept = self.run.kept_for(to)?;
        let mut text = self.set_for(to, &kept);
        let all = (0..kept.len())
            .rev()
            .filter_map(|call| Some((call, kept[call]?)));
        for (call, why) in all.clone().take(self.calls) {
            let asked = call_in_words(&self.run.calls[call], self.names);
            text += &format!("  call {call}: {asked}\n    {}\n", self.why(call, why));
        }
        if all.clone().count() > self.calls {
            let more = all.count() - self.calls;
            text += &format!("  and {} more\n", counted(more, "call"));
        }
        Ok(text)
    }

    fn set_for(&self, to: usize, kept: &[Option<Kept>]) -> String {
        let count = kept.iter().flatten().count();
        format!(
            "Source set of {} along the list, from its end back: {count} of {} kept\n",
            self.names.domain(to),
            counted(kept.len(), "call")
        )
    }

    fn why(&self, call: usize, why: Kept) -> String {
        let caller = |call| {
            self.run
                .caller(call)
                .map(|caller| self.names.domain(caller))
        };
        match why {
            Kept::Own => "kept: its own call".to_string(),
            Kept::Joins(hold) => format!(
                "kept: {} joins the source set here by {} on {}",
                self.names.domain(hold.holder),
                rights_in_words(hold.set),
                self.names.domain(hold.target)
            ),
            Kept::Joined(later) => format!(
                "kept: {} is in the source set by call {later}",
                caller(call).unwrap_or_default()
            ),
        }
    }

    // All pairs.

    fn all_chains(&self) -> Result<String, String> {
        let chains = Chains::now(&self.input.table)?;
        let mut text =
            String::from("Chains of rights in this table: who has one, and by which rights\n");
        for to in 0..domains(&self.input.table) {
            text += &self.chains_to(&chains, to)?;
        }
        Ok(text)
    }

    fn chains_to(&self, chains: &Chains, to: usize) -> Result<String, String> {
        let mut text = format!("  to {}:", self.names.domain(to));
        if chains.to(to).next().is_none() {
            text += " nobody else";
        }
        for from in chains.to(to) {
            let chain = chains.chain(from, to)?.unwrap_or_default();
            text += &format!("\n    {}", self.chain(&chain));
        }
        Ok(text + "\n")
    }

    /// For each domain who joins its source set, at which call and by which rights.
    fn all_sets(&self) -> Result<String, String> {
        let mut text = String::new();
        for to in 0..domains(&self.input.table) {
            let kept = self.run.kept_for(to)?;
            let joins = kept.iter().enumerate().rev().filter_map(|(call, why)| {
                let Some(Kept::Joins(hold)) = why else {
                    return None;
                };
                Some(format!("  at call {call}: {}\n", self.hold(hold)))
            });
            text += &self.set_for(to, &kept);
            text.extend(joins);
        }
        Ok(text)
    }

    fn all_ever(&self) -> Result<String, String> {
        let mut text = groups_in_words(&self.input.table, self.names);
        let (now, ever) = (
            Chains::now(&self.input.table)?,
            Chains::ever(&self.input.table)?,
        );
        let n = domains(&self.input.table);
        let pairs = (0..n).flat_map(|from| ever.from(from).map(move |to| (from, to)));
        let more: Vec<(usize, usize)> = pairs
            .filter(|&(from, to)| now.to(to).all(|has| has != from))
            .collect();
        text += "Chains of rights that calls could ever give:\n";
        for &(from, to) in more.iter().take(PAIRS_MAX) {
            text += &self.could(from, to)?;
        }
        text += &match more.get(PAIRS_MAX..) {
            _ if more.is_empty() => "  none\n".to_string(),
            None | Some([]) => String::new(),
            Some(others) => self.without_calls(others),
        };
        Ok(text + &self.all_never(&ever))
    }

    fn could(&self, from: usize, to: usize) -> Result<String, String> {
        let Ever::Could { list, .. } = could_ever(&self.input.table, from, to)? else {
            return Ok(String::new());
        };
        let calls = self.list(&list).replace("  ", "    ");
        Ok(format!(
            "  {} to {}, by calls of {}:\n{calls}",
            self.names.domain(from),
            self.names.domain(to),
            self.several(&actors(&list))
        ))
    }

    /// Pairs that could come to a chain of rights, without the calls that give it.
    fn without_calls(&self, pairs: &[(usize, usize)]) -> String {
        let (names, count) = (self.names, counted(pairs.len(), "pair"));
        let each = pairs
            .iter()
            .map(|&(from, to)| format!("  {} to {}\n", names.domain(from), names.domain(to)));
        let each: String = each.collect();
        format!(
            "{each}  (the calls for the last {count} are printed where FROM and TO are given)\n"
        )
    }

    /// For each domain those at which nothing that it does ever shows.
    fn all_never(&self, ever: &Chains) -> String {
        let n = domains(&self.input.table);
        let mut text =
            String::from("Never, whatever calls are made: nothing that these do shows at\n");
        let head = text.len();
        for from in 0..n {
            let reached: Vec<usize> = ever.from(from).collect();
            let never: Vec<usize> = (0..n)
                .filter(|to| *to != from && !reached.contains(to))
                .collect();
            if !never.is_empty() {
                let row = self.names.domain_row(&never);
                text += &format!("  {}: {row}\n", self.names.domain(from));
            }
        }
        if text.len() == head {
            text += "  none: everybody could come to count for everybody\n";
        }
        text
    }
}

/// Who makes the calls of a list.
pub fn actors(list: &[u32]) -> Vec<usize> {
    let mut actors: Vec<usize> = Vec::new();
    for call in cut(list) {
        actors.extend(call.caller().map(|caller| caller as usize));
    }
    actors.sort_unstable();
    actors.dedup();
    actors
}

/// Parts of a sentence, as `one, two and three`.
pub fn in_a_row(parts: Vec<String>) -> String {
    match parts.split_last() {
        Some((last, before)) if !before.is_empty() => format!("{} and {last}", before.join(", ")),
        _ => parts.concat(),
    }
}

/// The calls with these indices, as `calls 0 to 2 and 5`.
fn ranges(calls: &[usize]) -> String {
    let mut ranges: Vec<(usize, usize)> = Vec::new();
    for &call in calls {
        match ranges.last_mut() {
            Some((_, last)) if *last + 1 == call => *last = call,
            _ => ranges.push((call, call)),
        }
    }
    let parts = ranges.iter().flat_map(|&(first, last)| match last - first {
        0 => vec![first.to_string()],
        1 => vec![first.to_string(), last.to_string()],
        _ => vec![format!("{first} to {last}")],
    });
    let word = if calls.len() == 1 { "call" } else { "calls" };
    format!("{word} {}", in_a_row(parts.collect()))
}

#[cfg(test)]
mod tests {
    use super::*;

    /// Domain 0 has all rights on eight domains and could give them to each: 56 pairs come to
    /// a chain of rights, each of which is printed.
    #[test]
    fn pairs_beyond_forty_are_printed_without_their_calls() {
        let mut table = vec![0x1000_0800];
        table.extend([0x2000_000F; 8]);
        table.extend([0x2000_0000; 56]);
        let line = Input {
            table,
            list: Vec::new(),
        };
        let names = Names::none();
        let printed = Asked::of(&line, &names, 0).unwrap().everything().unwrap();
        assert_eq!(printed.matches(", by calls of domain 0:\n").count(), 40);
        let pair = |line: &&str| line.starts_with("  domain ") && line.contains(" to domain ");
        assert_eq!(printed.lines().filter(pair).count(), 49);
        let end = "  domain 7 to domain 6\n  (the calls for the last 9 pairs are printed where FROM and \
                   TO are given)\nNever, whatever calls are made: nothing that these do shows at\n  \
                   none: everybody could come to count for everybody\n";
        assert!(printed.ends_with(end), "{printed}");
    }

    #[test]
    fn calls_are_printed_in_ranges() {
        assert_eq!(ranges(&[3]), "call 3");
        assert_eq!(ranges(&[0, 1, 2]), "calls 0 to 2");
        assert_eq!(ranges(&[0, 1]), "calls 0 and 1");
        assert_eq!(ranges(&[0, 1, 2, 5, 7, 8, 9]), "calls 0 to 2, 5 and 7 to 9");
    }
}
