//! The facts of a report, which the page and the JSON both have.

use reference::calls::{cut, Call};
use reference::entry::ANSWER_WORDS;
use reference::influence::tables_before;
use reference::members;
use reference::table::{capacity, domains, endpoints, lost, owner, rights_place, waiting};
use reference::words::bits;

use crate::judging::checklist::{Summary, Verdicts};
use crate::judging::counts;
use crate::kernels::boundary::could_influence;
use crate::kernels::lent::Ran;
use crate::text::explain::{answer_on_table, call_on_table};
use crate::text::input::Input;
use crate::text::names::Names;
use crate::text::reasons::Replay;

/// A report: what was judged, on what, and what came of it.
pub struct Report<'a> {
    /// The time, as [`in_utc`](crate::clock::in_utc) writes it.
    pub made: String,
    pub place: Place,
    pub input: Source,
    pub line: &'a Input,
    pub names: &'a Names,
    pub judged: Judged,
    pub verdicts: &'a Verdicts,
}

/// What is commissioned, as far as whoever runs the program says it: the controller, the site,
/// and the firmware.
#[derive(Default)]
pub struct Place {
    pub controller: Option<String>,
    pub site: Option<String>,
    pub firmware: Option<String>,
}

/// A file and the hash of its bytes.
pub struct Source {
    pub file: String,
    pub sha256: String,
}

/// What the verdicts are about.
pub enum Judged {
    /// A kernel that was run: its name, what it is, what its variants were drawn from, and
    /// how much there is of the exercise.
    Kernel {
        name: &'static str,
        title: &'static str,
        seed: u64,
        exercise: String,
    },
    /// Words that were read back from a controller.
    ReadBack { answers: Source, left: Source },
}

/// What the build knows of the archive that it linked, of the kit that was at hand, and of
/// the program itself.
pub const ARCHIVE: &str = env!("ARCHIVE_TITLE");
pub const ARCHIVE_SHA256: &str = env!("ARCHIVE_SHA256");
pub const VERSION: &str = env!("CARGO_PKG_VERSION");

/// The logic that the archive says it was checked by, where it does.
pub fn archive_logic() -> Option<&'static str> {
    Some(env!("ARCHIVE_LOGIC")).filter(|logic| !logic.is_empty())
}

/// The hash of the archive's machine code, as `firmware/identify` prints it, where it is an
/// archive for x86-64.
pub fn archive_text() -> Option<&'static str> {
    Some(env!("ARCHIVE_TEXT")).filter(|hash| !hash.is_empty())
}

/// What the kit said of itself when the program was built, where there was one.
pub fn kit() -> Option<&'static str> {
    Some(env!("KIT")).filter(|kit| !kit.is_empty())
}

/// An endpoint in this list: what was sent, received and lost, and what waits.
#[derive(Debug, Clone, Copy, PartialEq, Eq)]
pub struct EndpointRow {
    pub endpoint: usize,
    pub owner: usize,
    pub capacity: usize,
    pub waiting_before: usize,
    pub sent: u64,
    pub received: u64,
    pub lost: u64,
    pub waiting_after: usize,
    pub lost_count_before: u32,
    pub lost_count_after: u32,
}

/// The rights word of a holder on a target before this list and after it.
#[derive(Debug, Clone, Copy, PartialEq, Eq)]
pub struct RightsCell {
    pub holder: usize,
    pub target: usize,
    pub before: u32,
    pub after: u32,
}

/// A call of this list with its answer.
#[derive(Debug, Clone, PartialEq, Eq)]
pub struct CallRow {
    pub words: Vec<u32>,
    pub asked: String,
    /// What was answered, where this list was run.
    pub answer: Option<Answered>,
}

/// The answer to a call, in words too; a refusal is with its reason.
#[derive(Debug, Clone, PartialEq, Eq)]
pub struct Answered {
    pub words: Vec<u32>,
    pub in_words: String,
    /// What the reference answers, where that is something else.
    pub right: Option<String>,
}

impl Answered {
    /// The code: 0, or that of a refusal.
    pub fn code(&self) -> u32 {
        bits(self.words[0], 15, 0)
    }
}

/// Who could influence a domain by any list of calls, as the proved function says, and whose
/// calls count for it in this list: its source set. Itself is in both.
#[derive(Debug, Clone, PartialEq, Eq)]
pub struct Influenced {
    pub domain: usize,
    pub could: Vec<usize>,
    pub sources: Vec<usize>,
}

/// What a report comes to.
#[derive(Debug, Clone, Copy, PartialEq, Eq)]
pub enum Verdict {
    /// No check failed: how many of the four passed, one at least.
    Passed(usize),
    /// No check failed, and nothing was shown on any.
    NothingShown,
    Failed,
}

impl Verdict {
    /// Whether people may put the line into service by it.
    pub fn allows_service(self) -> bool {
        matches!(self, Verdict::Passed(_))
    }
}

impl Report<'_> {
    pub fn verdict(&self) -> Verdict {
        match self.verdicts.summary() {
            Summary { failed: 1.., .. } => Verdict::Failed,
            Summary { passed: 0, .. } => Verdict::NothingShown,
            Summary { passed, .. } => Verdict::Passed(passed),
        }
    }

    /// All calls of this list, each with its answer.
    pub fn call_rows(&self) -> Vec<CallRow> {
        let (table, calls) = (&self.line.table, cut(&self.line.list));
        let mut replay = Replay::new(table, &calls, self.names);
        let answers = self.verdicts.left.as_ref().ok();
        let mut answers = answers.map(|ran| ran.answers.chunks_exact(ANSWER_WORDS));
        let row = |call: &Call| CallRow {
            words: call.words(),
            asked: call_on_table(call, table, self.names),
            answer: answers
                .as_mut()
                .and_then(Iterator::next)
                .map(|words| self.answered(&mut replay, call, words)),
        };
        calls.iter().map(row).collect()
    }

    /// The answer to the next call of a replay.
    fn answered(&self, replay: &mut Replay, call: &Call, words: &[u32]) -> Answered {
        let right = replay.answer();
        let wrong = right != words;
        let right = wrong.then(|| answer_on_table(replay.table(), call, &right, self.names));
        Answered {
            words: words.to_vec(),
            in_words: replay.answered(words),
            right,
        }
    }

    /// Who could influence each domain, and its source set over this list.
    pub fn influenced(&self) -> Vec<Influenced> {
        let (table, calls) = (&self.line.table, cut(&self.line.list));
        let n = domains(table);
        let influenced = |domain: usize| {
            // An accepted table and one of its domains are never refused.
            let (_, could) = could_influence(table, !(!0 << n), domain as u32);
            Influenced {
                domain,
                could: (0..n).filter(|other| could >> other & 1 != 0).collect(),
                sources: members(table, &calls, domain).into_iter().collect(),
            }
        };
        (0..n).map(influenced).collect()
    }

    /// What this list left, or why nothing can be read of it.
    pub fn left(&self) -> Result<&Ran, String> {
        match &self.verdicts.left {
            Err(why) => Err(why.clone()),
            Ok(ran) if ran.table.first() != self.line.table.first() => {
                Err("word 0 of the table, by which all others are read, was altered".to_string())
            }
            Ok(ran) => Ok(ran),
        }
    }

    /// The endpoints in this list, by the answers and the table that were left.
    pub fn endpoint_rows(&self) -> Result<Vec<EndpointRow>, String> {
        let (before, after) = (&self.line.table, self.left()?);
        let counts = counts::follow(before, &cut(&self.line.list), &after.answers);
        let row = |endpoint| {
            let run = &counts.queues[endpoint];
            EndpointRow {
                endpoint,
                owner: owner(before, endpoint),
                capacity: capacity(before, endpoint),
                waiting_before: waiting(before, endpoint),
                sent: run.sent,
                received: run.received,
                lost: run.full,
                waiting_after: waiting(&after.table, endpoint),
                lost_count_before: lost(before, endpoint),
                lost_count_after: lost(&after.table, endpoint),
            }
        };
        Ok((0..endpoints(before)).map(row).collect())
    }

    /// The rights of each holder on each target, row by row.
    pub fn rights(&self) -> Result<Vec<RightsCell>, String> {
        let (before, after) = (&self.line.table, self.left()?);
        let n = domains(before);
        let cell = |(holder, target)| {
            let place = rights_place(before, holder, target);
            RightsCell {
                holder,
                target,
                before: before[place],
                after: after.table[place],
            }
        };
        Ok((0..n * n)
            .map(|place| cell((place / n, place % n)))
            .collect())
    }

    /// The tables before each call of this list and after the last, by the reference
    /// implementation's run.
    pub fn tables(&self) -> Vec<Vec<u32>> {
        tables_before(&self.line.table, &cut(&self.line.list))
    }
}

#[cfg(test)]
pub mod tests {
    use super::*;
    use crate::judging::checklist::Checklist;
    use crate::kernels::boundary::{Kernel, PROVED};

    /// What a kernel's checklist on the worked example comes to.
    pub fn verdicts(kernel: Kernel) -> Verdicts {
        Checklist::new(kernel, &Input::example(), &Names::none(), 1).verdicts()
    }

    /// What is made of a report with the verdicts on the worked example.
    pub fn with_report<T>(
        verdicts: &Verdicts,
        names: &Names,
        make: impl FnOnce(&Report) -> T,
    ) -> T {
        with_report_on(&Input::example(), verdicts, names, make)
    }

    /// What is made of a report with the verdicts on a line, in a file whose name is hard to
    /// write.
    pub fn with_report_on<T>(
        line: &Input,
        verdicts: &Verdicts,
        names: &Names,
        make: impl FnOnce(&Report) -> T,
    ) -> T {
        make(&Report {
            made: "2026-11-16T11:24:43Z".to_string(),
            place: Place {
                site: Some("<Hall> 4".to_string()),
                ..Place::default()
            },
            input: Source {
                file: "<script>\"&'".to_string(),
                sha256: "00ff".repeat(16),
            },
            line,
            names,
            judged: Judged::Kernel {
                name: "balkwizu",
                title: "proved archive",
                seed: 7,
                exercise: "13 lists".to_string(),
            },
            verdicts,
        })
    }

    #[test]
    fn counts_and_rights_are_those_of_the_worked_example() {
        with_report(&verdicts(PROVED), &Names::none(), |report| {
            let row = report.endpoint_rows().unwrap()[1];
            let expected = EndpointRow {
                endpoint: 1,
                owner: 2,
                capacity: 1,
                waiting_before: 0,
                sent: 2,
                received: 1,
                lost: 1,
                waiting_after: 0,
                lost_count_before: 0,
                lost_count_after: 1,
            };
            assert_eq!(row, expected);
            let rights = report.rights().unwrap();
            let altered: Vec<&RightsCell> = rights
                .iter()
                .filter(|cell| cell.before != cell.after)
                .collect();
            let granted = RightsCell {
                holder: 0,
                target: 2,
                before: 0x2000_0000,
                after: 0x2000_0001,
            };
            assert_eq!((rights.len(), altered), (9, vec![&granted]));
        });
    }

    #[test]
    fn a_table_that_cannot_be_read_after_the_list_is_reported() {
        let mut verdicts = verdicts(PROVED);
        verdicts.left.as_mut().unwrap().table[0] ^= 0x100;
        with_report(&verdicts, &Names::none(), |report| {
            assert!(report.endpoint_rows().unwrap_err().contains("word 0"));
            assert!(report.rights().is_err());
        });
        verdicts.left = Err("this list was not run".to_string());
        with_report(&verdicts, &Names::none(), |report| {
            assert_eq!(report.rights().unwrap_err(), "this list was not run");
        });
    }

    #[test]
    fn every_call_is_there_with_its_answer_and_a_refusal_with_its_reason() {
        let mut verdicts = verdicts(PROVED);
        with_report(&verdicts, &Names::none(), |report| {
            let rows = report.call_rows();
            let codes: Vec<u32> = rows.iter().map(code).collect();
            assert_eq!(codes, [17, 0, 0, 0, 0, 19, 10, 0, 0]);
            let first = rows[0].answer.as_ref().unwrap();
            let why = "refused with 17: domain 0 has no SEND on domain 2, the owner of endpoint 1;";
            assert!(first.in_words.starts_with(why), "{}", first.in_words);
            assert_eq!(rows[0].asked, "domain 0 sends 5 to endpoint 1");
            assert!(rows
                .iter()
                .all(|row| row.answer.as_ref().unwrap().right.is_none()));
        });
        verdicts.left.as_mut().unwrap().answers[13] ^= 1;
        with_report(&verdicts, &Names::none(), |report| {
            let answer = report.call_rows()[4].answer.clone().unwrap();
            assert_eq!(answer.in_words, "message 7; 1 lost so far");
            assert_eq!(answer.right.as_deref(), Some("message 6; 1 lost so far"));
        });
        verdicts.left = Err("this list was not run".to_string());
        with_report(&verdicts, &Names::none(), |report| {
            let rows = report.call_rows();
            assert!(rows.len() == 9 && rows.iter().all(|row| row.answer.is_none()));
        });
    }

    fn code(row: &CallRow) -> u32 {
        row.answer.as_ref().expect("an answer").code()
    }

    #[test]
    fn source_sets_are_within_who_could_influence() {
        with_report(&verdicts(PROVED), &Names::none(), |report| {
            let influenced = report.influenced();
            let sources: Vec<&[usize]> = influenced.iter().map(|one| &one.sources[..]).collect();
            assert_eq!(sources, [&[0, 1][..], &[0, 1], &[0, 1, 2]]);
            for one in &influenced {
                let (code, set) =
                    reference::could_influence(&report.line.table, 7, one.domain as u32);
                let bits: u32 = one.could.iter().map(|domain| 1 << domain).sum();
                assert_eq!((code, set), (0, bits));
                assert!(one.sources.iter().all(|domain| one.could.contains(domain)));
            }
        });
    }

    #[test]
    fn a_verdict_without_a_passed_check_allows_no_service() {
        let mut verdicts = verdicts(PROVED);
        let verdict = |verdicts: &Verdicts| with_report(verdicts, &Names::none(), |r| r.verdict());
        assert_eq!(verdict(&verdicts), Verdict::Passed(4));
        for check in &mut verdicts.checks[..3] {
            check.judged.as_mut().unwrap().shown = false;
        }
        assert_eq!(verdict(&verdicts), Verdict::Passed(1));
        verdicts.checks[3].judged.as_mut().unwrap().shown = false;
        assert_eq!(verdict(&verdicts), Verdict::NothingShown);
        verdicts.checks[0].judged = Err("wrong".to_string());
        assert_eq!(verdict(&verdicts), Verdict::Failed);
        assert!(Verdict::Passed(1).allows_service());
        assert!(!Verdict::NothingShown.allows_service() && !Verdict::Failed.allows_service());
    }

    #[test]
    fn the_build_knows_its_archive() {
        assert_eq!(ARCHIVE_SHA256.len(), 64);
        let digits = |text: &str| text.bytes().all(|byte| byte.is_ascii_hexdigit());
        assert!(digits(ARCHIVE_SHA256) && archive_logic().is_none_or(digits));
        assert!(archive_text().is_none_or(digits));
    }
}
