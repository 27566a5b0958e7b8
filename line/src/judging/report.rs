//! What is wrong with a run, reported so that it can be seen again: cut down to fewer calls,
//! on a smaller table where it was drawn, with its words as `balkwizu write` takes them.

use std::time::Duration;

use crate::cases::Case;
use crate::judging::shrink::shrink;
pub use crate::judging::shrink::Cut;
use crate::kernels::boundary::Kernel;
use crate::kernels::child;
use crate::kernels::lent::Failure;
use crate::text::explain::counted;
use crate::text::hex;
use crate::text::input::Input;

/// How long a kernel may take at most while calls are left out: so little that many can
/// be tried on a kernel that loops.
const SHORT: Duration = Duration::from_millis(100);

/// What a kernel did where there is no run to compare; where it stopped, with a shorter
/// run that it stops at.
pub fn failed(kernel: &Kernel, case: &Case, failure: Failure, limit: Duration) -> String {
    let Failure::Stopped(how) = failure else {
        return failure.to_string();
    };
    let stops = |case: &Case, limit| match child::run(kernel, case, limit) {
        Err(Failure::Stopped(how)) => Some(how.to_string()),
        _ => None,
    };
    match cut_down(case, Cut::Calls, limit, stops) {
        Some(shorter) => format!("{how}\n{shorter}"),
        None => format!("{how}; tried again, it returned\n{}", words(case)),
    }
}

/// A run with as few calls as are still wrong, what is wrong with it, and its words;
/// nothing where nothing is wrong with the run. `wrong` tries a run within a time.
pub fn cut_down(
    case: &Case,
    cut: Cut,
    limit: Duration,
    wrong: impl Fn(&Case, Duration) -> Option<String>,
) -> Option<String> {
    let short = SHORT.min(limit / 3);
    let is_wrong = |case: &Case| wrong(case, short).is_some();
    let shorter = shrink(case, cut, is_wrong);
    let (shorter, why) = match wrong(&shorter, limit) {
        Some(why) => (&shorter, why),
        // What took longer than the short time may be right all the same.
        None => (case, wrong(case, limit)?),
    };
    let calls = counted(reference::cut(&shorter.list).len(), "call");
    Some(format!("Cut down to {calls}:\n  {why}\n{}", words(shorter)))
}

/// The words of a run, and how much answer space it has.
fn words(case: &Case) -> String {
    let input = Input {
        table: case.table.clone(),
        list: case.list.clone(),
    };
    format!(
        "Its words, as `balkwizu write` takes them:\n{}# answer space: {}\n",
        hex::write(&input),
        counted(case.answers.len(), "word")
    )
}

#[cfg(test)]
mod tests {
    use super::*;
    use crate::judging::variants::case_of;
    use crate::kernels::boundary::PROVED;
    use crate::kernels::faulty;
    use crate::kernels::lent::{Forbidden, Stopped};

    const SOON: Duration = Duration::from_millis(300);

    fn reported(kernel: Kernel, how: Stopped) -> String {
        let failure = Failure::Stopped(how);
        failed(&kernel, &case_of(&Input::example()), failure, SOON)
    }

    #[test]
    fn a_stop_is_cut_down_to_the_call_that_does_it() {
        let fault = reported(faulty::FAULTS_AT_A_GRANT, Stopped::Fault(11));
        let both = "the kernel was ended by signal 11 (segmentation fault)";
        assert!(fault.starts_with(&format!(
            "{both}\nCut down to 1 call:\n  {both}\nIts words,"
        )));
        assert!(fault.contains("list\n60420001\n# answer space"), "{fault}");
        let endless = reported(faulty::LOOPS_AT_A_GRANT, Stopped::Loop(SOON));
        assert!(endless.contains("list\n60420001\n# answer space"));
    }

    #[test]
    fn a_stop_that_does_not_come_again_is_reported_as_it_is() {
        let report = reported(PROVED, Stopped::Fault(11));
        assert!(report.contains("(segmentation fault); tried again, it returned\nIts words,"));
        assert!(report.contains("list\n20000100 F0000005\n60420001\n"));
    }

    #[test]
    fn what_was_written_is_reported_alone() {
        let case = case_of(&Input::example());
        let report = failed(&PROVED, &case, Failure::Wrote(Forbidden::List), SOON);
        assert_eq!(report, "the kernel wrote the list");
    }
}
