//! Chains of rights from one domain to another, and source sets along a list (document 01,
//! demand 3). Who has a chain, now or by calls that could ever be made, is what the proved
//! functions say; the chain itself is found here, and so is who joins the source set of a
//! domain along a list. What is found is compared with the proved functions and with the
//! reference implementation, and a difference is reported.

use reference::calls::{Call, MY_RIGHTS};
use reference::table::{domains, rights};
use reference::words::{bits, hex, word};
use reference::{cut, grants_for_all, members, purge, sources, step};

use crate::kernels::boundary::{component, could_influence, potential, who_reaches, PROVED};
use crate::kernels::lent::{all_done, table_left};

/// A right, or several, of one domain on another: a step of a chain.
#[derive(Debug, Clone, Copy, PartialEq, Eq)]
pub struct Hold {
    pub holder: usize,
    pub set: u32,
    pub target: usize,
}

/// Who has a chain of rights to whom by sets of rights.
pub struct Chains {
    n: usize,
    /// The set of holder h on target t at h × n + t.
    sets: Vec<u32>,
    /// By target, those with a chain to it as bits, as the proved function says.
    proved: Vec<u32>,
}

impl Chains {
    /// The chains of rights in an accepted table.
    pub fn now(table: &[u32]) -> Result<Chains, String> {
        let n = domains(table);
        let pairs = (0..n * n).map(|pair| rights(table, pair / n, pair % n));
        Chains::by(n, pairs.collect())
    }

    /// The chains of rights in the table where everybody has all that calls could ever
    /// give, one list all of it and none more. Who has one is who could ever be in a source
    /// set, where all act.
    pub fn ever(table: &[u32]) -> Result<Chains, String> {
        let n = domains(table);
        let (everybody, mut sets) = (!(!0 << n), vec![0; n * n]);
        let code = potential(table, everybody, &mut sets);
        if code != 0 {
            return Err(format!("the potential rights are refused with {code}"));
        }
        let proved = (0..n as u32).map(|target| match could_influence(table, everybody, target) {
            (0, set) => Ok(set),
            (code, _) => Err(format!(
                "who could influence domain {target} is refused with {code}"
            )),
        });
        let proved: Result<Vec<u32>, String> = proved.collect();
        proved.map(|proved| Chains { n, sets, proved })
    }

    fn by(n: usize, sets: Vec<u32>) -> Result<Chains, String> {
        let on = |target: usize| {
            let bits = (0..n).map(|holder| u32::from(sets[holder * n + target] != 0) << holder);
            bits.sum()
        };
        let holders: Vec<u32> = (0..n).map(on).collect();
        let proved = (0..n).map(|target| match who_reaches(&holders, target as u32) {
            (0, set) => Ok(set),
            (code, _) => Err(format!(
                "who reaches domain {target} is refused with {code}"
            )),
        });
        let proved: Result<Vec<u32>, String> = proved.collect();
        proved.map(|proved| Chains { n, sets, proved })
    }

    /// Those with a chain to a domain, without itself.
    pub fn to(&self, target: usize) -> impl Iterator<Item = usize> + '_ {
        let with_chain = move |from: &usize| *from != target && self.says(*from, target);
        (0..self.n).filter(with_chain)
    }

    /// Those that a domain has a chain to, without itself.
    pub fn from(&self, from: usize) -> impl Iterator<Item = usize> + '_ {
        let with_chain = move |target: &usize| *target != from && self.says(from, *target);
        (0..self.n).filter(with_chain)
    }

    /// The rights of a domain on another.
    pub fn set(&self, holder: usize, target: usize) -> u32 {
        self.sets[holder * self.n + target]
    }

    fn says(&self, from: usize, to: usize) -> bool {
        self.proved[to] >> from & 1 != 0
    }

    /// The shortest chain from one domain to another, if there is one; an error where the
    /// proved function says otherwise, or where a step of it isn't there.
    pub fn chain(&self, from: usize, to: usize) -> Result<Option<Vec<Hold>>, String> {
        let found = self.shortest(from, to);
        if found.is_some() != self.says(from, to) {
            let (search, proved) = match found {
                Some(_) => ("finds a chain of rights", "says that there is none"),
                None => ("finds no chain of rights", "says that there is one"),
            };
            return Err(format!(
                "DIFFERENCE\n  from domain {from} to domain {to} the search {search}, the proved \
                 function {proved}"
            ));
        }
        match &found {
            Some(chain) if !self.leads(chain, from, to) => Err(format!(
                "DIFFERENCE\n  from domain {from} to domain {to} the search finds {chain:?}, which is \
                 no chain of rights in the table"
            )),
            _ => Ok(found),
        }
    }

    /// Whether the steps are there, each from where the last one came to.
    fn leads(&self, chain: &[Hold], from: usize, to: usize) -> bool {
        let come_to = chain.iter().try_fold(from, |at, hold| {
            let held = self.set(hold.holder, hold.target);
            let there = hold.holder == at && hold.set == held && held != 0;
            there.then_some(hold.target)
        });
        come_to == Some(to)
    }

    fn shortest(&self, from: usize, to: usize) -> Option<Vec<Hold>> {
        let next = self.next_holds(to);
        let mut chain = Vec::new();
        let mut at = from;
        while at != to {
            let hold = next[at]?;
            chain.push(hold);
            at = hold.target;
        }
        Some(chain)
    }

    /// For each domain the first step of its shortest chain to another. The search goes
    /// from the end back, breadth first.
    fn next_holds(&self, to: usize) -> Vec<Option<Hold>> {
        let mut next: Vec<Option<Hold>> = vec![None; self.n];
        let mut reached = vec![to];
        let mut looked_at = 0;
        while let Some(&target) = reached.get(looked_at) {
            looked_at += 1;
            let new = |holder: &usize| !reached.contains(holder) && self.set(*holder, target) != 0;
            let holders: Vec<usize> = (0..self.n).filter(new).collect();
            for &holder in &holders {
                let set = self.set(holder, target);
                next[holder] = Some(Hold {
                    holder,
                    set,
                    target,
                });
            }
            reached.extend(holders);
        }
        next
    }
}

/// Whether a domain could ever have a chain of rights to another.
#[derive(Debug, PartialEq, Eq)]
pub enum Ever {
    /// It has one already.
    Now,
    /// It would have this chain after these calls.
    Could { list: Vec<u32>, chain: Vec<Hold> },
    /// No list of calls gives it one; whether they are in different connected components.
    Never { apart: bool },
}

/// Whether a domain could ever have a chain of rights to another in an accepted table.
pub fn could_ever(table: &[u32], from: usize, to: usize) -> Result<Ever, String> {
    if Chains::now(table)?.chain(from, to)?.is_some() {
        return Ok(Ever::Now);
    }
    let (_, group) = component(table, to as u32);
    let apart = group >> from & 1 == 0;
    match (Chains::ever(table)?.chain(from, to)?, apart) {
        (None, apart) => Ok(Ever::Never { apart }),
        (Some(_), true) => Err(format!(
            "DIFFERENCE\n  domain {from} could ever have a chain of rights to domain {to}, and is in \
             another connected component"
        )),
        (Some(_), false) => {
            let list = list_for(table, from, to);
            match Chains::now(&table_left(&PROVED, table, &list)?)?.chain(from, to)? {
                Some(chain) => Ok(Ever::Could { list, chain }),
                None => Err(format!(
                    "DIFFERENCE\n  domain {from} could ever have a chain of rights to domain {to}, \
                     and the list that is built gives none"
                )),
            }
        }
    }
}

/// A short list of grants that gives one domain a chain of rights to another: of those that
/// give everything the ones without which it doesn't come. Fewer grants never give more, so
/// what is needed once stays needed.
fn list_for(table: &[u32], from: usize, to: usize) -> Vec<u32> {
    let comes = |list: &[u32]| {
        let mut now = table.to_vec();
        for call in cut(list) {
            step(&mut now, &call);
        }
        let holders = reference::holders(&now);
        let (_, set) = who_reaches(&holders, to as u32);
        set >> from & 1 != 0
    };
    let mut list = grants_for_all(table, !(!0 << domains(table)));
    for place in (0..list.len()).rev() {
        let call = list.remove(place);
        if !comes(&list) {
            list.insert(place, call);
        }
    }
    list
}

/// A short list of calls that puts one domain into the source set of another, where calls
/// could: the grants by which it comes to a chain of rights, then a call of each member of
/// the chain, the first of them first, without those that aren't needed for it.
fn list_to_join(table: &[u32], from: usize, to: usize) -> Result<Vec<u32>, String> {
    let mut list = list_for(table, from, to);
    let left = table_left(&PROVED, table, &list)?;
    let chain = Chains::now(&left)?.chain(from, to)?.unwrap_or_default();
    list.extend(chain.iter().map(|hold| my_rights_word(hold.holder)));
    let joins = |list: &[u32]| {
        let (mut now, calls) = (table.to_vec(), cut(list));
        let done = |call: &Call| bits(step(&mut now, call)[0], 15, 0) == 0;
        members(table, &calls, to).contains(&from) && calls.iter().all(done)
    };
    for place in (0..list.len()).rev() {
        let call = list.remove(place);
        if !joins(&list) {
            list.insert(place, call);
        }
    }
    Ok(list)
}

fn my_rights_word(caller: usize) -> u32 {
    word(MY_RIGHTS, (caller << 22) as u32)
}

/// What the calls of one domain come to at another.
#[derive(Debug, PartialEq, Eq)]
pub enum Verdict {
    /// These calls of the list count: their caller is in the source set at each.
    InThisList { calls: Vec<usize> },
    /// None of the list counts, but one of this list would, each call of which is done.
    Could { list: Vec<u32> },
    /// No list has one that counts; whether they are in different connected components.
    Never { apart: bool },
}

/// A run of a list, to be asked for the source set of each domain.
pub struct Run {
    pub calls: Vec<Call>,
    /// The table before each call, and at the end the one that is left.
    tables: Vec<Vec<u32>>,
}

/// Why a call is kept for a domain.
#[derive(Debug, Clone, Copy, PartialEq, Eq)]
pub enum Kept {
    /// It is the domain's own.
    Own,
    /// Its caller joins the source set here, by its rights on a member.
    Joins(Hold),
    /// Its caller is in the source set by then: it joined at this later call.
    Joined(usize),
}

impl Run {
    /// Runs a list on an accepted table by the proved kernel, one call after another, so
    /// that each table between is known.
    pub fn of(table: &[u32], list: &[u32]) -> Result<Run, String> {
        let calls = cut(list);
        let mut tables = vec![table.to_vec()];
        for (number, call) in calls.iter().enumerate() {
            tables.push(table_left(&PROVED, &tables[number], &call.words())?);
        }
        match table_left(&PROVED, table, list)? == tables[calls.len()] {
            true => Ok(Run { calls, tables }),
            false => Err(
                "DIFFERENCE\n  the kernel leaves another table by the list than by its calls one \
                 after another"
                    .to_string(),
            ),
        }
    }

    /// The table that is left.
    pub fn end(&self) -> &[u32] {
        &self.tables[self.calls.len()]
    }

    /// For a domain, why each call is kept, or nothing where it is purged; an error where
    /// the reference implementation says otherwise.
    pub fn kept_for(&self, domain: usize) -> Result<Vec<Option<Kept>>, String> {
        let mut joined: Vec<Option<usize>> = vec![None; domains(self.end())];
        let mut kept = vec![None; self.calls.len()];
        for call in (0..self.calls.len()).rev() {
            let Some(caller) = self.caller(call) else {
                continue;
            };
            kept[call] = match joined[caller] {
                _ if caller == domain => Some(Kept::Own),
                Some(later) => Some(Kept::Joined(later)),
                None => {
                    let member = |to: usize| to == domain || joined[to].is_some();
                    self.hold_before(call, caller, member).map(Kept::Joins)
                }
            };
            if let Some(Kept::Joins(_)) = kept[call] {
                joined[caller] = Some(call);
            }
        }
        self.compare_with_the_reference(domain, &kept)?;
        Ok(kept)
    }

    /// What the calls of one domain come to at another, itself or not.
    pub fn verdict(&self, from: usize, to: usize) -> Result<Verdict, String> {
        let (table, calls) = (&self.tables[0], self.counting(from, to)?);
        match could_ever(table, from, to)? {
            Ever::Never { .. } if !calls.is_empty() => Err(format!(
                "DIFFERENCE\n  call {} of domain {from} is kept for domain {to}, which no list \
                 could bring about",
                calls[0]
            )),
            Ever::Never { apart } => Ok(Verdict::Never { apart }),
            _ if from == to || !calls.is_empty() => Ok(Verdict::InThisList { calls }),
            _ => {
                let list = list_to_join(table, from, to)?;
                done_and_joined(table, &list, from, to)?;
                Ok(Verdict::Could { list })
            }
        }
    }

    /// The calls of one domain that are kept for another.
    fn counting(&self, from: usize, to: usize) -> Result<Vec<usize>, String> {
        let kept = self.kept_for(to)?;
        let counts = |call: &usize| kept[*call].is_some() && self.caller(*call) == Some(from);
        Ok((0..kept.len()).filter(counts).collect())
    }

    /// The first table of the run with a chain of rights from one domain to another, by the
    /// number of calls before it, and the chain.
    pub fn first_chain(
        &self,
        from: usize,
        to: usize,
    ) -> Result<Option<(usize, Vec<Hold>)>, String> {
        for (calls, table) in self.tables.iter().enumerate() {
            if let Some(chain) = Chains::now(table)?.chain(from, to)? {
                return Ok(Some((calls, chain)));
            }
        }
        Ok(None)
    }

    /// A call's caller, where that is a domain.
    pub fn caller(&self, call: usize) -> Option<usize> {
        let caller = self.calls[call].caller()? as usize;
        (caller < domains(self.end())).then_some(caller)
    }

    /// The rights that a domain has just before a call on a member of a set, the one with
    /// the lowest number.
    fn hold_before(
        &self,
        call: usize,
        holder: usize,
        member: impl Fn(usize) -> bool,
    ) -> Option<Hold> {
        let table = &self.tables[call];
        let holds = (0..domains(table)).map(|target| Hold {
            holder,
            set: rights(table, holder, target),
            target,
        });
        let mut on_members = holds.filter(|hold| hold.set != 0 && member(hold.target));
        on_members.next()
    }

    /// That the reference implementation keeps the same calls, and has the same source set
    /// at each.
    fn compare_with_the_reference(
        &self,
        domain: usize,
        kept: &[Option<Kept>],
    ) -> Result<(), String> {
        let sets = sources(&self.tables[0], &self.calls, domain);
        let purged = purge(&self.tables[0], &self.calls, domain);
        let joins = |call: usize| matches!(kept[call], Some(Kept::Joins(_)));
        let differs = |call: &usize| {
            let grows = sets[*call].len() > sets[call + 1].len();
            purged[*call] != kept[*call].is_some() || grows != joins(*call)
        };
        match (0..self.calls.len()).find(differs) {
            None => Ok(()),
            Some(call) => Err(format!(
                "DIFFERENCE\n  for domain {domain} call {call} is {:?}; by the reference implementation \
                 it is {}, with the source set {:?}",
                kept[call],
                if purged[call] { "kept" } else { "purged" },
                sets[call]
            )),
        }
    }
}

/// That the proved kernel does each call of a list, and that by it one domain is in the
/// source set of another.
fn done_and_joined(table: &[u32], list: &[u32], from: usize, to: usize) -> Result<(), String> {
    let joined = !Run::of(table, list)?.counting(from, to)?.is_empty();
    match joined && all_done(&PROVED, table, list)? {
        true => Ok(()),
        false => Err(format!(
            "DIFFERENCE\n  domain {from} could be in the source set of domain {to}, and the list \
             that is built doesn't put it there: {}",
            hex(list)
        )),
    }
}

#[cfg(test)]
mod tests {
    use super::*;
    use crate::text::input::Input;
    use reference::example::TABLE_T;
    use reference::generate::{chained_table, list, walled_table, Rng};

    fn hold(holder: usize, set: u32, target: usize) -> Hold {
        Hold {
            holder,
            set,
            target,
        }
    }

    #[test]
    fn the_shortest_chain_is_found() {
        let chains = Chains::now(&TABLE_T).unwrap();
        let chain = vec![hold(0, 1, 1), hold(1, 7, 2)];
        assert_eq!(chains.chain(0, 2), Ok(Some(chain)));
        assert_eq!(chains.chain(1, 2), Ok(Some(vec![hold(1, 7, 2)])));
        assert_eq!(chains.chain(2, 0), Ok(None));
        assert_eq!(chains.chain(2, 2), Ok(Some(vec![])));
        assert_eq!(chains.to(2).collect::<Vec<_>>(), [0, 1]);
        assert_eq!(chains.from(0).collect::<Vec<_>>(), [1, 2]);
    }

    #[test]
    fn a_chain_that_the_proved_function_does_not_know_is_reported_and_the_other_way_round() {
        let mut chains = Chains::now(&TABLE_T).unwrap();
        chains.proved[2] &= !1;
        let said = chains.chain(0, 2).unwrap_err();
        assert!(said.contains(
            "the search finds a chain of rights, the proved function says that there is none"
        ));
        chains.proved[0] |= 1 << 2;
        let said = chains.chain(2, 0).unwrap_err();
        assert!(
            said.contains("the search finds no chain of rights"),
            "{said}"
        );
    }

    #[test]
    fn a_step_that_is_not_there_leads_nowhere() {
        let chains = Chains::now(&TABLE_T).unwrap();
        let leads = |chain: &[Hold]| chains.leads(chain, 0, 2);
        assert!(leads(&[hold(0, 1, 1), hold(1, 7, 2)]));
        assert!(!leads(&[hold(0, 1, 1), hold(1, 1, 2)]), "another set");
        assert!(!leads(&[hold(0, 1, 1)]), "another end");
        assert!(!leads(&[hold(1, 7, 2)]), "another start");
        assert!(!leads(&[hold(0, 0, 2)]), "no right");
    }

    #[test]
    fn chains_of_random_tables_are_those_of_the_proved_functions() {
        let mut rng = Rng::new(11);
        let (mut could, mut never) = (0, 0);
        for number in 0..150 {
            let table = match number % 2 {
                0 => chained_table(&mut rng, 6, 2),
                _ => walled_table(&mut rng, 8, 2),
            };
            let (from, to) = (rng.below(domains(&table)), rng.below(domains(&table)));
            match could_ever(&table, from, to).unwrap() {
                Ever::Now => {}
                Ever::Could { list, .. } => could += usize::from(!list.is_empty()),
                Ever::Never { .. } => never += 1,
            }
        }
        assert!(could > 5 && never > 20, "{could} and {never}");
    }

    #[test]
    fn a_chain_that_grants_give_comes_by_a_short_list() {
        let mut table = TABLE_T;
        table[2] = 0x2000_0000;
        let said = could_ever(&table, 0, 2).unwrap();
        let list = vec![0x6042_0007];
        let chain = vec![hold(0, 7, 2)];
        assert_eq!(said, Ever::Could { list, chain });
        table[6] = 0x2000_0005;
        let apart = false;
        assert_eq!(could_ever(&table, 0, 2), Ok(Ever::Never { apart }));
        table[6] = 0x2000_0000;
        let apart = true;
        assert_eq!(could_ever(&table, 0, 2), Ok(Ever::Never { apart }));
    }

    #[test]
    fn who_joins_the_source_set_along_the_worked_example() {
        let input = Input::example();
        let run = Run::of(&input.table, &input.list).unwrap();
        let kept = run.kept_for(1).unwrap();
        // Document 01, P12: for domain 1 the calls 4, 5, 6 and 8 are purged.
        let purged: Vec<usize> = (0..9).filter(|call| kept[*call].is_none()).collect();
        assert_eq!(purged, [4, 5, 6, 8]);
        assert_eq!(kept[7], Some(Kept::Joins(hold(0, 1, 1))));
        assert_eq!(kept[3], Some(Kept::Joined(7)));
        assert_eq!(kept[1], Some(Kept::Own));
    }

    #[test]
    fn source_sets_of_random_lists_are_those_of_the_reference() {
        let mut rng = Rng::new(12);
        let mut joins = 0;
        for _ in 0..150 {
            let table = chained_table(&mut rng, 6, 3);
            let list = list(&mut rng, &table, 40);
            let run = Run::of(&table, &list).unwrap();
            let kept = run.kept_for(rng.below(domains(&table))).unwrap();
            let joined = |why: &&Kept| matches!(why, Kept::Joins(_));
            joins += kept.iter().flatten().filter(joined).count();
        }
        assert!(joins > 100, "{joins}");
    }

    #[test]
    fn a_list_that_puts_a_domain_into_a_source_set_has_grants_and_then_the_chain() {
        let mut table = TABLE_T;
        let run = Run::of(&table, &[]).unwrap();
        let list = vec![my_rights_word(0), my_rights_word(1)];
        assert_eq!(run.verdict(0, 2), Ok(Verdict::Could { list }));
        assert_eq!(run.verdict(2, 0), Ok(Verdict::Never { apart: false }));
        assert_eq!(run.verdict(2, 2), Ok(Verdict::InThisList { calls: vec![] }));
        // Without a right of 0 on 1 domain 1 must give it one on 2 first.
        table[2] = 0x2000_0000;
        let run = Run::of(&table, &[]).unwrap();
        let list = vec![0x6042_0007, my_rights_word(0)];
        assert_eq!(run.verdict(0, 2), Ok(Verdict::Could { list }));
        assert!(done_and_joined(&table, &[my_rights_word(0)], 0, 2).is_err());
        assert!(
            done_and_joined(&table, &[0x6042_0008, 0x6042_0007, my_rights_word(0)], 0, 2).is_err()
        );
    }

    /// That the verdicts are those of the reference implementation, over lists of which some
    /// calls count, none does, or none ever can.
    #[test]
    fn verdicts_of_random_lists_are_those_of_the_reference() {
        let mut rng = Rng::new(14);
        let mut met = [0; 4];
        for number in 0..200 {
            let table = match number % 2 {
                0 => chained_table(&mut rng, 6, 2),
                _ => walled_table(&mut rng, 8, 2),
            };
            let n = domains(&table);
            let list = list(&mut rng, &table, 12);
            let run = Run::of(&table, &list).unwrap();
            let (from, to) = (rng.below(n), rng.below(n));
            let (_, could) = reference::could_influence(&table, !(!0 << n), to as u32);
            let verdict = run.verdict(from, to).unwrap();
            let never = matches!(verdict, Verdict::Never { .. });
            assert_eq!(never, could >> from & 1 == 0, "table {number}");
            let kept = members(&table, &run.calls, to).contains(&from);
            let counts = matches!(verdict, Verdict::InThisList { .. });
            assert_eq!(counts, kept, "table {number}");
            met[usize::from(never) + 2 * usize::from(counts)] += 1;
            met[3] += usize::from(counts && run.first_chain(from, to).unwrap().is_none());
        }
        assert!(met[..3].iter().all(|&met| met > 20), "{met:?}");
    }

    /// What the help says of those that never can: rights come only as far as the
    /// potential ones, so nobody else ever joins the source set.
    #[test]
    fn who_can_never_have_a_chain_is_purged_in_every_list() {
        let mut rng = Rng::new(13);
        let (mut kept, mut purged) = (0, 0);
        for _ in 0..150 {
            let table = walled_table(&mut rng, 6, 3);
            let list = list(&mut rng, &table, 40);
            let domain = rng.below(domains(&table));
            let (run, ever) = (
                Run::of(&table, &list).unwrap(),
                Chains::ever(&table).unwrap(),
            );
            for (call, why) in run.kept_for(domain).unwrap().iter().enumerate() {
                let could = run
                    .caller(call)
                    .is_some_and(|caller| ever.says(caller, domain));
                assert!(could || why.is_none(), "call {call} of domain {domain}");
                kept += usize::from(why.is_some());
                purged += usize::from(!could && run.caller(call).is_some());
            }
        }
        assert!(kept > 100 && purged > 100, "{kept} and {purged}");
    }

    #[test]
    fn a_call_that_is_kept_wrongly_is_reported() {
        let input = Input::example();
        let run = Run::of(&input.table, &input.list).unwrap();
        let mut kept = run.kept_for(1).unwrap();
        kept[4] = Some(Kept::Joined(7));
        let said = run.compare_with_the_reference(1, &kept).unwrap_err();
        assert!(
            said.contains("for domain 1 call 4 is Some(Joined(7))"),
            "{said}"
        );
        kept[4] = None;
        kept[3] = Some(Kept::Joins(hold(0, 1, 1)));
        assert!(run.compare_with_the_reference(1, &kept).is_err());
    }
}
