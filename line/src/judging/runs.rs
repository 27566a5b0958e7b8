//! Random runs of a kernel: each beside the reference, the counts of its queues, and what
//! domains see of it.

use std::ops::Range;

use reference::calls::{cut, Call, REVOKE};
use reference::entry::ANSWER_WORDS;
use reference::table::{domains, endpoints, DOMAINS_MAX, ENDPOINTS_MAX};
use reference::words::bits;

use crate::cases::random::{rng_for, run_case};
use crate::cases::Case;
use crate::judging::compare::{difference, isolation, separate_run};
use crate::judging::report::{cut_down, Cut};
use crate::judging::tally::Tally;
use crate::judging::trying::{try_all, Draws, Found, Met};
use crate::judging::{counts, groups, holders, lists, pairs};
use crate::kernels::boundary::{Kernel, PROVED_WRITER};
use crate::kernels::child::{self, LIMIT};
use crate::kernels::lent::{run_here, Failure, Ran};

/// Runs with no more words to look at than this are looked at for every domain,
/// others for one of them.
const WORDS_FOR_EVERY_DOMAIN: usize = 40_000;

/// What runs must meet.
pub fn met() -> Met {
    let codes =
        Met::codes("run code", 0..=6).and(Met::codes("call code", [0].into_iter().chain(10..=23)));
    let facts = Met::of(&[
        "a run with 1 domain",
        "a run with 16 domains",
        "a run without endpoints",
        "a run with 32 endpoints",
        "a view of a domain compared",
        "a call purged for a domain",
        "a call of another domain purged by components",
        "a send to a full queue",
        "a send with the lost count at its top",
        "a receive that leaves the queue empty",
        "a revoke of a right that is there",
        "a revoke of a right that isn't",
        "a list that is written as it came",
        "holders that are other than n words",
    ]);
    codes.and(facts).and(holders::met()).and(pairs::met())
}

/// Tries the runs; the first that is wrong, in words and with its own words.
pub fn try_runs(kernel: &Kernel, draws: &Draws, tally: &mut Tally) -> Result<(), String> {
    let found = try_all("runs", draws, &mut tally.runs, |number, met| {
        let case = run_case(draws.seed, number);
        judged(&case, (draws.seed, number), met, |case| {
            run_here(kernel, case)
        })
    });
    found.map_err(|found| report(kernel, draws, &found))
}

/// Runs a case, and others that follow from it; an error where something is wrong.
fn judged(
    case: &Case,
    (seed, number): (u64, u64),
    met: &mut Met,
    run: impl Fn(&Case) -> Result<Ran, Failure>,
) -> Result<(), String> {
    let ran = run(case)?;
    one_run(case, &ran, number, met)?;
    pairs::pair(case, &ran, (seed, number), met, &run)?;
    // Call by call, and with a question about any words: one run in eight of each kind of case.
    if ran.outcome.code == 0 && number / 8 % 8 == 0 {
        holders::after_each_call(case, number, met, &run)?;
        holders::ask_anything(&mut rng_for(seed.rotate_left(48), number), met)?;
    }
    Ok(())
}

/// What is wrong with a run. `pick` chooses the domain whose view is looked at where not
/// every domain's is.
fn one_run(case: &Case, ran: &Ran, pick: u64, met: &mut Met) -> Result<(), String> {
    if let Some(why) = difference(case, ran, &separate_run(case)?) {
        return Err(why);
    }
    groups::is_component(&case.table, (pick % 18) as u32)?;
    let calls = cut(&case.list);
    let code = ran.outcome.code;
    met.add_code("run code", code, 1);
    if code != 0 {
        let enough = case.answers.len() >= ANSWER_WORDS * calls.len();
        met.add("holders that are other than n words", code == 6 && enough);
        return Ok(());
    }
    if let Some(why) = counts::difference(&case.table, &ran.table, &calls, &ran.answers) {
        return Err(why);
    }
    let as_it_came = lists::read_as_answered(PROVED_WRITER, &case.list, &ran.answers)?;
    met.add(
        "a list that is written as it came",
        as_it_came && !calls.is_empty(),
    );
    for domain in domains_to_see(case, calls.len(), pick) {
        met.add("a view of a domain compared", true);
        met.add(
            "a call purged for a domain",
            isolation(case, ran, domain)?.calls as u64,
        );
        let apart = groups::kept_apart(case, ran, domain)?;
        met.add("a call of another domain purged by components", apart);
    }
    count_calls(case, ran, &calls, met);
    count_revokes(&case.table, &calls, met);
    Ok(())
}

/// Counts what the calls of a run that isn't refused met.
fn count_calls(case: &Case, ran: &Ran, calls: &[Call], met: &mut Met) {
    let (n, m) = (domains(&case.table), endpoints(&case.table));
    met.add("a run with 1 domain", n == 1);
    met.add("a run with 16 domains", n == DOMAINS_MAX);
    met.add("a run without endpoints", m == 0);
    met.add("a run with 32 endpoints", m == ENDPOINTS_MAX);
    let mut codes = [0; 24];
    for answer in ran.answers.chunks_exact(ANSWER_WORDS).take(calls.len()) {
        codes[bits(answer[0], 15, 0) as usize] += 1;
    }
    for (code, count) in (0..).zip(codes) {
        met.add_code("call code", code, count);
    }
    let queues = counts::follow(&case.table, calls, &ran.answers);
    met.add("a send to a full queue", queues.sum(|queue| queue.full));
    met.add(
        "a send with the lost count at its top",
        queues.sum(|queue| queue.at_top),
    );
    met.add(
        "a receive that leaves the queue empty",
        queues.sum(|queue| queue.emptied),
    );
}

/// Counts the revokes among calls that are done, by what the holder had.
fn count_revokes(table: &[u32], calls: &[Call], met: &mut Met) {
    if calls.iter().all(|call| call.kind() != REVOKE) {
        return;
    }
    let mut table = table.to_vec();
    for call in calls {
        let before = table.clone();
        let answer = reference::step(&mut table, call);
        if call.kind() == REVOKE && bits(answer[0], 15, 0) == 0 {
            met.add("a revoke of a right that is there", table != before);
            met.add("a revoke of a right that isn't", table == before);
        }
    }
}

fn domains_to_see(case: &Case, calls: usize, pick: u64) -> Range<usize> {
    let n = domains(&case.table);
    if n * calls * case.table.len() <= WORDS_FOR_EVERY_DOMAIN {
        return 0..n;
    }
    let one = (pick / 8) as usize % n;
    one..one + 1
}

/// What to show of a run that is wrong: where it came from, what is wrong, and the words
/// of a shorter run that still is.
fn report(kernel: &Kernel, draws: &Draws, found: &Found) -> String {
    let drawn = (draws.seed, found.number);
    let wrong = |case: &Case, limit| {
        let run = |case: &Case| child::run(kernel, case, limit);
        judged(case, drawn, &mut met(), run).err()
    };
    let (case, limit) = (run_case(drawn.0, drawn.1), draws.limit.min(LIMIT));
    let shorter = cut_down(&case, Cut::TableToo, limit, wrong);
    let line = format!("fuzz --kernel {} --table-checks 0", kernel.name);
    let again = found.again(&line, "--cases", draws, shorter.is_some());
    found.head("run", draws) + &again + &shorter.unwrap_or_default()
}

#[cfg(test)]
mod tests {
    use super::*;
    use crate::kernels::boundary::{PROVED, PROVED_RUNS};
    use crate::kernels::faulty;
    use crate::trial::draws;

    fn found(kernel: Kernel) -> String {
        let found = try_runs(&kernel, &draws(0..1500), &mut Tally::default());
        found.expect_err(kernel.name)
    }

    #[test]
    fn no_kernel_differs_and_every_code_is_met() {
        for kernel in PROVED_RUNS {
            let mut tally = Tally::default();
            let found = try_runs(kernel, &draws(0..1500), &mut tally);
            assert_eq!(found, Ok(()), "{}", kernel.name);
            assert_eq!(tally.runs.missing(), [""; 0]);
        }
    }

    #[test]
    fn every_faulty_kernel_is_found() {
        let faulty = [
            faulty::WRONG_ANSWER,
            faulty::WRONG_TABLE,
            faulty::WRONG_CODE,
            faulty::WRONG_COUNT,
            faulty::WRITES_BEYOND_ANSWERS,
            faulty::WRITES_OUTSIDE,
            faulty::WRITES_LIST,
            faulty::LOSES_COUNT,
            faulty::WRONG_HOLDERS,
            faulty::WRITES_AFTER_HOLDERS,
        ];
        for kernel in faulty {
            let report = found(kernel);
            assert!(report.starts_with("DIFFERENCE in run"), "{report}");
            assert!(
                report.contains("table\n") && report.contains("list\n"),
                "{report}"
            );
        }
    }

    #[test]
    fn a_kernel_that_stops_is_found_with_the_call_that_does_it() {
        for kernel in [
            faulty::FAULTS_AT_A_GRANT,
            faulty::LOOPS_AT_A_GRANT,
            faulty::EXITS_AT_A_GRANT,
        ] {
            let report = found(kernel);
            assert!(report.starts_with("STOPPED in run"), "{report}");
            assert!(
                report.contains("Cut down to 1 call:\n  the kernel"),
                "{report}"
            );
            let list = report.split_once("list\n").expect("a list").1;
            assert!(list.starts_with('6'), "{report}");
            // The smallest table will do, where there is time to find it.
            let smallest = report.contains("table\n10000100\n20000000\nlist\n");
            assert!(smallest || report.contains("not returned"), "{report}");
        }
    }

    #[test]
    fn a_kernel_that_is_wrong_only_after_other_runs_is_reported_as_such() {
        use std::sync::atomic::{AtomicU32, Ordering::Relaxed};
        static RUNS: AtomicU32 = AtomicU32::new(0);
        let kernel = PROVED.with_run("tires", |table, list, answers, holders| unsafe {
            let outcome = PROVED.run(&mut *table, &*list, &mut *answers, &mut *holders);
            outcome.calls << 16 | outcome.code | u32::from(RUNS.fetch_add(1, Relaxed) == 400)
        });
        let report = found(kernel);
        // Far fewer than the kernel's runs: some numbers have two, for a pair of lines, and
        // some one for each call.
        let number = report.strip_prefix("DIFFERENCE in run ").expect("a run");
        let number: u64 = number.split(' ').next().unwrap().parse().unwrap();
        assert!((10..200).contains(&number), "{report}");
        assert!(report.contains("Only after those before it"), "{report}");
        let again = format!("--from 0 --cases {}\n", number + 1);
        assert!(report.contains(&again), "{report}");
    }
}
