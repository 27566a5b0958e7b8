//! Why a call is refused, with the facts: which right is missing, who holds it now, and which
//! earlier call took it away. All of it is read from the reference implementation's replay of
//! the list, call by call.

use reference::calls::{GRANT, RECEIVE, REMOVE, REVOKE};
use reference::entry::ANSWER_WORDS;
use reference::machine::refusal;
use reference::table::{domains, endpoints, name, owner, right, rights, waiting};
use reference::words::bits;
use reference::Call;

use crate::text::explain::{answer_on_table, call_on_table, rights_in_words};
use crate::text::names::Names;

/// A list that is played on a table, and what its calls took away.
pub struct Replay<'a> {
    calls: &'a [Call],
    names: &'a Names,
    table: Vec<u32>,
    done: usize,
    /// For each holder, target and right, the last call that took it away.
    taken: Vec<[Option<usize>; right::EACH.len()]>,
    /// For each endpoint, the last call that received the only message that waited.
    emptied: Vec<Option<usize>>,
}

impl<'a> Replay<'a> {
    /// A list on an accepted table, before its first call.
    pub fn new(table: &[u32], calls: &'a [Call], names: &'a Names) -> Replay<'a> {
        Replay {
            calls,
            names,
            table: table.to_vec(),
            done: 0,
            taken: vec![[None; right::EACH.len()]; domains(table) * domains(table)],
            emptied: vec![None; endpoints(table)],
        }
    }

    /// The table after the calls that have been played.
    pub fn table(&self) -> &[u32] {
        &self.table
    }

    /// Says what an answer to the next call means, and plays the call.
    pub fn answered(&mut self, answer: &[u32]) -> String {
        let call = &self.calls[self.done];
        let why = self.refused(call, bits(answer[0], 15, 0));
        let said = why.unwrap_or_else(|| answer_on_table(&self.table, call, answer, self.names));
        self.play();
        said
    }

    /// Returns the answer of the reference to the next call.
    pub fn answer(&self) -> [u32; ANSWER_WORDS] {
        reference::step(&mut self.table.clone(), &self.calls[self.done])
    }

    /// Plays the next call, and keeps in mind what it takes away.
    fn play(&mut self) {
        let (number, call) = (self.done, &self.calls[self.done]);
        let before = self.table.clone();
        reference::step(&mut self.table, call);
        self.done += 1;
        if before == self.table {
            return;
        }
        let n = domains(&before);
        let caller = bits(call.first, 27, 22) as usize;
        match call.kind() {
            RECEIVE if waiting(&self.table, call.b() as usize) == 0 => {
                self.emptied[call.b() as usize] = Some(number);
            }
            REMOVE => self.note(number, &before, caller * n + call.a() as usize),
            REVOKE => self.note(number, &before, call.b() as usize * n + call.a() as usize),
            _ => {}
        }
    }

    /// Notes the rights that a call took from the word of one holder on one target.
    fn note(&mut self, number: usize, before: &[u32], place: usize) {
        let gone = before[1 + place] & !self.table[1 + place];
        for (at, bit) in right::EACH.into_iter().enumerate() {
            if gone & bit != 0 {
                self.taken[place][at] = Some(number);
            }
        }
    }

    /// Returns why a call is refused with a code, where the reference refuses it so too and
    /// there are facts to say.
    fn refused(&self, call: &Call, code: u32) -> Option<String> {
        if refusal(&self.table, call) != Some(code) {
            return None;
        }
        let why = self.facts(call, code)?;
        Some(format!("refused with {code}: {why}"))
    }

    fn facts(&self, call: &Call, code: u32) -> Option<String> {
        let table = &self.table;
        let endpoint = call.b() as usize;
        let caller = self.names.domain(call.caller()? as usize);
        match code {
            12 => Some(self.no_domain(&[call.caller()?])),
            15 => Some(self.no_name(call.second_content()?)),
            16 => Some(format!(
                "the table has no endpoint {endpoint}: it has {}",
                below(endpoints(table))
            )),
            17 => Some(self.no_send(call, endpoint)),
            18 => Some(format!(
                "{} belongs to {}, not to {caller}",
                self.names.endpoint(endpoint),
                self.names.domain(owner(table, endpoint))
            )),
            19 => Some(self.nothing_waits(endpoint)),
            20 if call.kind() == REMOVE => Some(self.no_domain(&[call.a()])),
            20 => Some(self.no_domain(&[call.a(), call.b()])),
            21 => Some(format!(
                "C is {}, and a set of rights is 1 to {}",
                call.c(),
                right::ALL
            )),
            22 => Some(self.lacks(call)),
            23 => Some(self.reaches_not(call)),
            _ => None,
        }
    }

    /// Says which of some domains the table hasn't.
    fn no_domain(&self, named: &[u32]) -> String {
        let n = domains(&self.table);
        let mut missing: Vec<String> = named
            .iter()
            .filter(|&&domain| domain as usize >= n)
            .map(|domain| format!("no domain {domain}"))
            .collect();
        missing.dedup();
        format!("the table has {}: it has {}", row(&missing), below(n))
    }

    /// Says which names there are, or the one of the endpoint with that index.
    fn no_name(&self, wanted: u32) -> String {
        let table = &self.table;
        let called = |e: usize| match self.names.endpoint_name(e) {
            Some(given) => format!("{} ({given})", name(table, e)),
            None => name(table, e).to_string(),
        };
        let there_are = match endpoints(table) {
            0 => "the table has no endpoint".to_string(),
            many if (wanted as usize) < many => {
                let endpoint = self.names.endpoint(wanted as usize);
                format!("{endpoint} has the name {}", name(table, wanted as usize))
            }
            1 => format!("the only one is {}", called(0)),
            many => format!(
                "there are {}",
                row(&(0..many).map(called).collect::<Vec<_>>())
            ),
        };
        format!("no endpoint has the name {wanted}: {there_are}")
    }

    fn no_send(&self, call: &Call, endpoint: usize) -> String {
        let target = owner(&self.table, endpoint);
        let of_it = format!(", the owner of {}", self.names.endpoint(endpoint));
        self.missing(call, target, right::SEND, &of_it)
    }

    fn nothing_waits(&self, endpoint: usize) -> String {
        let it = self.names.endpoint(endpoint);
        match self.emptied[endpoint] {
            Some(number) => format!(
                "nothing waits in {it}; {} received the last message",
                self.call(number)
            ),
            None => format!(
                "nothing waits in {it}; it was empty before the list, and no send to it was done"
            ),
        }
    }

    /// Says which rights a grant, remove or revoke needs that the caller lacks.
    fn lacks(&self, call: &Call) -> String {
        let needed = match call.kind() {
            GRANT => right::GRANT | call.c(),
            REMOVE => right::REMOVE | call.c(),
            _ => right::REVOKE,
        };
        self.missing(call, call.a() as usize, needed, "")
    }

    /// Says which of the needed rights on a target the caller has not, who holds each of
    /// them, and which call took it away.
    fn missing(&self, call: &Call, target: usize, needed: u32, of_it: &str) -> String {
        let caller = bits(call.first, 27, 22) as usize;
        let missing = needed & !rights(&self.table, caller, target);
        let each: Vec<u32> = right::EACH
            .into_iter()
            .filter(|bit| missing & bit != 0)
            .collect();
        let lacked: Vec<String> = each
            .iter()
            .map(|&bit| format!("no {}", rights_in_words(bit)))
            .collect();
        let mut said = format!(
            "{} has {} on {}{of_it}",
            self.names.domain(caller),
            row(&lacked),
            self.names.domain(target)
        );
        for &bit in &each {
            let it = match each.len() {
                1 => "it".to_string(),
                _ => rights_in_words(bit),
            };
            said += &self.held(target, bit, &it);
            said += &self.took(caller, target, bit, &it);
        }
        said
    }

    /// Says who holds one of some rights on a target.
    fn held(&self, target: usize, set: u32, it: &str) -> String {
        let holders: Vec<String> = (0..domains(&self.table))
            .filter(|&holder| rights(&self.table, holder, target) & set != 0)
            .map(|holder| self.names.domain(holder))
            .collect();
        match holders.len() {
            0 => format!("; nobody holds {it}"),
            1 => format!("; {} holds {it}", holders[0]),
            _ => format!("; {} hold {it}", row(&holders)),
        }
    }

    /// Says which call took the last of some rights away from a holder.
    fn took(&self, holder: usize, target: usize, set: u32, it: &str) -> String {
        let taken = &self.taken[holder * domains(&self.table) + target];
        let each = right::EACH.into_iter().zip(taken);
        let last = each.filter_map(|(bit, number)| number.filter(|_| set & bit != 0));
        match last.max() {
            Some(number) if it == "one" => {
                format!("; {} took the last one away", self.call(number))
            }
            Some(number) => format!("; {} took {it} away", self.call(number)),
            None => format!("; {} never had {it}", self.names.domain(holder)),
        }
    }

    /// Says that the caller has no right on the recipient or holder that it names.
    fn reaches_not(&self, call: &Call) -> String {
        let caller = bits(call.first, 27, 22) as usize;
        let named = call.b() as usize;
        let whom = match call.kind() {
            GRANT => "the recipient",
            _ => "the holder",
        };
        format!(
            "{} has no right on {}, {whom}{}{}",
            self.names.domain(caller),
            self.names.domain(named),
            self.held(named, right::ALL, "one"),
            self.took(caller, named, right::ALL, "one")
        )
    }

    /// An earlier call by its number and in words.
    fn call(&self, number: usize) -> String {
        let asked = call_on_table(&self.calls[number], &self.table, self.names);
        format!("call {number} ({asked})")
    }
}

/// How many there are, and their numbers.
fn below(size: usize) -> String {
    match size {
        0 => "none".to_string(),
        1 => "0 alone".to_string(),
        _ => format!("{size}, 0 to {}", size - 1),
    }
}

/// Some things in a row, as `a, b and c`.
fn row(all: &[String]) -> String {
    match all {
        [] => String::new(),
        [one] => one.clone(),
        [first @ .., last] => format!("{} and {last}", first.join(", ")),
    }
}

#[cfg(test)]
mod tests {
    use super::*;
    use crate::text::described;
    use crate::text::input::Input;
    use reference::cut;
    use reference::generate::{self, Rng};

    const LINE: &str = "\
domain link
domain loader
domain chute
domain panel
endpoint routes owner loader capacity 4 name 17
endpoint slides owner chute capacity 1 name 18
rights link on loader: SEND+GRANT
rights chute on loader: SEND
rights panel on loader: SEND+REVOKE
rights loader on loader: SEND+REVOKE
rights loader on link: SEND
rights panel on chute: SEND+REMOVE
calls
";

    /// What is said of the answers of the reference to a list in words.
    fn said(calls: &str) -> Vec<String> {
        let given = described::read(&format!("{LINE}{calls}")).unwrap();
        let input = Input::parse(&given.bytes).unwrap();
        let calls = cut(&input.list);
        let mut replay = Replay::new(&input.table, &calls, &given.names);
        let each = calls.iter().map(|_| replay.answered(&replay.answer()));
        each.collect()
    }

    fn last(calls: &str) -> String {
        said(calls).pop().unwrap()
    }

    #[test]
    fn a_caller_that_the_table_has_not_is_12() {
        let wanted = "refused with 12: the table has no domain 9: it has 4, 0 to 3";
        assert_eq!(last("9 asks for its rights"), wanted);
    }

    #[test]
    fn names_and_endpoints_that_the_table_has_not_are_15_and_16() {
        let wanted = "refused with 15: no endpoint has the name 5: there are 17 (routes) and 18 \
                      (slides)";
        assert_eq!(last("link looks up name 5"), wanted);
        let index = "refused with 15: no endpoint has the name 1: endpoint 1 (slides) has the \
                     name 18";
        assert_eq!(last("link looks up name 1"), index);
        let wanted = "refused with 16: the table has no endpoint 7: it has 2, 0 to 1";
        assert_eq!(last("link sends 5 to 7"), wanted);
        assert_eq!(last("link receives from 7"), wanted);
    }

    #[test]
    fn a_send_is_refused_with_17_by_the_call_that_took_the_right_away() {
        let all = said(
            "link sends 5 to routes\nloader takes SEND on loader back from link\n\
             link sends 6 to routes",
        );
        assert_eq!(all[..2], ["done", "done"]);
        assert_eq!(
            all[2],
            "refused with 17: domain 0 (link) has no SEND on domain 1 (loader), the owner of \
             endpoint 0 (routes); domain 1 (loader), domain 2 (chute) and domain 3 (panel) hold \
             it; call 1 (domain 1 (loader) takes SEND on domain 1 (loader) back from domain 0 \
             (link)) took it away"
        );
        let never = last("link sends 5 to slides");
        let wanted = "; domain 3 (panel) holds it; domain 0 (link) never had it";
        assert!(never.ends_with(wanted), "{never}");
    }

    #[test]
    fn a_receive_is_refused_with_18_by_the_owner_and_19_by_the_last_receive() {
        let wanted = "refused with 18: endpoint 1 (slides) belongs to domain 2 (chute), not to \
                      domain 0 (link)";
        assert_eq!(last("link receives from slides"), wanted);
        let never = "refused with 19: nothing waits in endpoint 0 (routes); it was empty before \
                     the list, and no send to it was done";
        assert_eq!(last("loader receives from routes"), never);
        let taken = last(
            "link sends 5 to routes\nloader receives from routes\nloader receives from routes",
        );
        let wanted = "routes); call 1 (domain 1 (loader) receives from endpoint 0 (routes)) \
                      received the last message";
        assert!(taken.ends_with(wanted), "{taken}");
    }

    #[test]
    fn domains_that_are_not_there_are_20_and_sets_that_are_none_21() {
        let wanted = "refused with 20: the table has no domain 8 and no domain 9: it has 4, 0 to 3";
        assert_eq!(last("link grants 9 SEND on 8"), wanted);
        let wanted = "refused with 20: the table has no domain 8: it has 4, 0 to 3";
        assert_eq!(last("link gives up SEND on 8"), wanted);
        assert_eq!(last("loader takes SEND on 8 back from 8"), wanted);
        let wanted = "refused with 21: C is 17, and a set of rights is 1 to 15";
        assert_eq!(last("link gives up 17 on loader"), wanted);
    }

    #[test]
    fn rights_that_a_call_needs_are_22() {
        let one = last("chute gives up SEND on loader");
        let wanted = "refused with 22: domain 2 (chute) has no REMOVE on domain 1 (loader); \
                      nobody holds it; domain 2 (chute) never had it";
        assert_eq!(one, wanted);
        let one = last("loader takes GRANT on link back from link");
        assert!(
            one.contains("has no REVOKE on domain 0 (link); nobody holds it"),
            "{one}"
        );
        let two = last("panel gives up SEND on chute\npanel grants loader SEND on chute");
        let wanted = "refused with 22: domain 3 (panel) has no SEND and no GRANT on domain 2 \
                      (chute); nobody holds SEND; call 0 (domain 3 (panel) gives up SEND on \
                      domain 2 (chute)) took SEND away; nobody holds GRANT; domain 3 (panel) \
                      never had GRANT";
        assert_eq!(two, wanted);
    }

    #[test]
    fn a_recipient_or_holder_without_a_right_on_it_is_23() {
        let wanted = "refused with 23: domain 0 (link) has no right on domain 3 (panel), the \
                      recipient; nobody holds one; domain 0 (link) never had one";
        assert_eq!(last("link grants panel SEND on loader"), wanted);
        let taken =
            last("panel gives up SEND+REMOVE on chute\npanel takes SEND on loader back from chute");
        let wanted = "refused with 23: domain 3 (panel) has no right on domain 2 (chute), the \
                      holder; nobody holds one; call 0 (domain 3 (panel) gives up SEND+REMOVE \
                      on domain 2 (chute)) took the last one away";
        assert_eq!(taken, wanted);
    }

    #[test]
    fn a_code_that_the_reference_does_not_give_has_no_facts() {
        let names = Names::none();
        let input = Input::example();
        let calls = cut(&input.list);
        let mut replay = Replay::new(&input.table, &calls, &names);
        let wrong = replay.answered(&[0x2000_0010, 0, 0]);
        assert_eq!(wrong, "refused with 16: the table has no such endpoint");
    }

    #[test]
    fn what_took_a_right_away_did_so_in_drawn_lists() {
        let mut rng = Rng::new(53);
        let mut named = 0;
        for _ in 0..300 {
            let table = generate::table(&mut rng, 5, 4);
            let calls = cut(&generate::list(&mut rng, &table, 60));
            let names = Names::none();
            let mut replay = Replay::new(&table, &calls, &names);
            let tables = reference::influence::tables_before(&table, &calls);
            for number in 0..calls.len() {
                assert_eq!(replay.table(), tables[number]);
                let said = replay.answered(&replay.answer());
                named += usize::from(took_it(&said, &tables));
            }
        }
        assert!(named > 20, "{named}");
    }

    /// Whether a call is named that took a right away: then a word of the rights lost a bit.
    fn took_it(said: &str, tables: &[Vec<u32>]) -> bool {
        let Some((before, _)) = said.split_once(" took ") else {
            return false;
        };
        let number = before.rsplit_once("; call ").unwrap().1;
        let number: usize = number.split(' ').next().unwrap().parse().unwrap();
        let words = tables[number].iter().zip(&tables[number + 1]);
        assert!(
            words
                .clone()
                .any(|(before, after)| before & !after & 15 != 0),
            "{said}"
        );
        true
    }
}
