//! What the checklist goes through beyond the line's table and list: the drills, and a
//! campaign of drawn runs. Both are for a kernel with which nothing was found wrong so far:
//! what is wrong with one of them fails check 2, and check 1 where it is a refusal.

use std::time::Duration;

use super::{Check, Found, Verdicts};
use crate::judging::drills::{go_through, orders, Wrong, DRILLS};
use crate::judging::images::try_images;
use crate::judging::runs::try_runs;
use crate::judging::tally::Tally;
use crate::judging::trying::Draws;
use crate::kernels::boundary::Kernel;
use crate::text::explain::counted;

/// What no run from outside can show.
pub const BLACK_BOX: &str =
    "what no run from outside can show: a fault that waits for one message, one name or \
     one history among more than can be tried";

/// The tables of the drills.
const FAMILY: &str =
    "this table, and tables of n 1, 2, 8, 9, 15 and 16 with m 0, 1, 31 and 32 and capacities \
     1 to 8";

/// So many table images are drawn for each run of the campaign.
const IMAGES: u64 = 4;

/// How long one run of the campaign may take.
const LIMIT: Duration = Duration::from_secs(10);

/// Goes through the drills where no check failed.
pub fn with_drills(kernel: &Kernel, line: &[u32], verdicts: Verdicts) -> Verdicts {
    if verdicts.summary().failed != 0 {
        return verdicts;
    }
    let drilled = go_through(kernel, line);
    let each = DRILLS.iter().zip(&drilled.cases);
    let each = each.map(|(drill, cases)| format!("{}: {cases}", drill.what));
    let runs = counted(drilled.cases.iter().sum::<u64>(), "run");
    let first = vec![
        format!(
            "drills on {FAMILY}, {runs} in one process, checks of images among them, each with \
             every word compared"
        ),
        format!("of these: {}", each.collect::<Vec<_>>().join("; ")),
        orders::in_words(),
    ];
    let second = vec![format!("the drills of check 1, {runs}")];
    added(verdicts, [first, second], drilled.wrong)
}

/// Tries so many drawn runs, and table images, where no check failed.
pub fn with_campaign(kernel: &Kernel, seed: u64, runs: u64, verdicts: Verdicts) -> Verdicts {
    if verdicts.summary().failed != 0 || runs == 0 {
        return verdicts;
    }
    let campaign = vec![format!(
        "a campaign with seed {seed}: {} and {}, drawn",
        counted(runs, "run"),
        counted(IMAGES.saturating_mul(runs), "table image")
    )];
    let wrong = tried(kernel, seed, runs).err().map(|word| Wrong {
        refusal: word.starts_with("STOPPED").then(|| word.clone()),
        word,
    });
    added(verdicts, [campaign.clone(), campaign], wrong)
}

/// Draws runs and images; the first that is wrong.
fn tried(kernel: &Kernel, seed: u64, runs: u64) -> Result<(), String> {
    let draws = |count: u64| Draws {
        seed,
        numbers: 0..count,
        limit: LIMIT,
    };
    let mut tally = Tally::default();
    try_runs(kernel, &draws(runs), &mut tally)?;
    try_images(kernel, &draws(IMAGES.saturating_mul(runs)), &mut tally)
}

/// The verdicts with what checks 1 and 2 are based on besides, or with what is wrong.
fn added(mut verdicts: Verdicts, more: [Vec<String>; 2], wrong: Option<Wrong>) -> Verdicts {
    let Some(Wrong { refusal, word }) = wrong else {
        for (check, more) in verdicts.checks.iter_mut().zip(more) {
            based_on(check, more);
        }
        return verdicts;
    };
    verdicts.checks[1].judged = Err(word);
    if let Some(refusal) = refusal {
        verdicts.checks[0].judged = Err(refusal);
    }
    verdicts
}

fn based_on(check: &mut Check, more: Vec<String>) {
    if let Ok(Found { based_on, .. }) = &mut check.judged {
        based_on.extend(more);
    }
}

/// Says of check 2 what no run from outside can show.
pub fn with_limits(mut verdicts: Verdicts) -> Verdicts {
    based_on(&mut verdicts.checks[1], vec![BLACK_BOX.to_string()]);
    verdicts
}

#[cfg(test)]
mod tests {
    use super::*;
    use crate::judging::checklist::Checklist;
    use crate::kernels::boundary::PROVED;
    use crate::kernels::faulty;
    use crate::text::input::Input;
    use crate::text::names::Names;

    fn own(kernel: Kernel) -> Verdicts {
        Checklist::new(kernel, &Input::example(), &Names::none(), 1).verdicts()
    }

    #[test]
    fn a_campaign_is_counted_and_what_it_finds_fails_check_2() {
        let right = with_limits(with_campaign(&PROVED, 1, 200, own(PROVED)));
        let found = right.checks[1].judged.as_ref().expect("it passes");
        let [.., campaign, limits] = &found.based_on[..] else {
            panic!("{:?}", found.based_on)
        };
        let drawn = "a campaign with seed 1: 200 runs and 800 table images, drawn";
        assert_eq!(campaign, drawn);
        assert_eq!(limits, BLACK_BOX);
        let wrong = with_campaign(&faulty::WRONG_ANSWER, 1, 200, own(PROVED));
        assert!(wrong.checks[0].judged.is_ok());
        let why = wrong.checks[1].judged.as_ref().unwrap_err();
        assert!(why.starts_with("DIFFERENCE in run "), "{why}");
    }

    #[test]
    fn a_kernel_that_failed_is_tried_no_further() {
        let wrong = faulty::WRONG_ANSWER;
        let verdicts = with_drills(&wrong, &Input::example().table, own(wrong));
        let before = own(wrong);
        for (check, before) in verdicts.checks.iter().zip(&before.checks) {
            assert_eq!(check.verdict(), before.verdict());
        }
    }

    #[test]
    fn the_sentence_about_the_tables_is_the_family() {
        use crate::judging::drills::tables::{DOMAINS, ENDPOINTS};
        assert_eq!((DOMAINS, ENDPOINTS), ([1, 2, 8, 9, 15, 16], [0, 1, 31, 32]));
        assert!(FAMILY.contains("n 1, 2, 8, 9, 15 and 16 with m 0, 1, 31 and 32"));
    }
}
