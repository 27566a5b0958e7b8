//! A report's facts as JSON. docs/REPORT.md names the fields: they stay as they are, and a
//! change of their meaning raises `format`.

use reference::calls::cut;
use reference::table::{domains, endpoints};
use reference::words::hex;

use crate::judging::checklist::Check;
use crate::reports::facts::{
    archive_logic, archive_text, kit, CallRow, EndpointRow, Influenced, Judged, Report, RightsCell,
    Source, Verdict, ARCHIVE, ARCHIVE_SHA256, VERSION,
};
use crate::reports::json::Json;

/// The number of this form.
const FORMAT: u64 = 2;

/// The JSON of a report, with a line's end after it.
pub fn json(report: &Report) -> String {
    let verdicts = report.verdicts;
    let mut all = head(report);
    all.extend([
        ("archive", archive()),
        ("input", input(report)),
        ("judged", judged(&report.judged)),
        ("checks", Json::List(checks(&verdicts.checks))),
        ("domains", Json::List(named_domains(report))),
        ("calls", list(report.call_rows().iter().enumerate(), call)),
        (
            "endpoints",
            rows(report.endpoint_rows(), |row| endpoint(report, row)),
        ),
        ("rights", rows(report.rights(), rights)),
        ("influence", list(&report.influenced(), influence)),
        ("left", Json::text_or_null(report.left().err().as_deref())),
    ]);
    format!("{}\n", Json::Object(all))
}

/// What came of it, when, where and by what.
fn head(report: &Report) -> Vec<(&'static str, Json)> {
    let summary = report.verdicts.summary();
    let verdict = match report.verdict() {
        Verdict::Failed => "failed",
        _ => "no check failed",
    };
    let service = match report.verdict().allows_service() {
        true => "for those who sign to decide",
        false => "not to be put into service",
    };
    let run_on = match report.judged {
        Judged::Kernel { .. } => "this computer",
        Judged::ReadBack { .. } => "a controller",
    };
    let place = &report.place;
    vec![
        ("format", Json::Number(FORMAT)),
        ("verdict", Json::text(verdict)),
        ("service", Json::text(service)),
        ("passed", number(summary.passed)),
        ("failed", number(summary.failed)),
        ("not_shown", number(summary.not_shown)),
        ("made", Json::text(&report.made)),
        ("run_on", Json::text(run_on)),
        (
            "controller",
            Json::text_or_null(place.controller.as_deref()),
        ),
        ("site", Json::text_or_null(place.site.as_deref())),
        ("firmware", Json::text_or_null(place.firmware.as_deref())),
        ("program", Json::text(VERSION)),
        ("kit", Json::text_or_null(kit())),
    ]
}

fn number(number: usize) -> Json {
    Json::Number(number as u64)
}

fn list<T>(all: impl IntoIterator<Item = T>, each: impl Fn(T) -> Json) -> Json {
    Json::List(all.into_iter().map(each).collect())
}

fn archive() -> Json {
    Json::Object(vec![
        ("title", Json::text(ARCHIVE)),
        ("sha256", Json::text(ARCHIVE_SHA256)),
        ("text_sha256", Json::text_or_null(archive_text())),
        ("logic", Json::text_or_null(archive_logic())),
    ])
}

fn input(report: &Report) -> Json {
    let line = report.line;
    Json::Object(vec![
        ("file", Json::text(&report.input.file)),
        ("sha256", Json::text(&report.input.sha256)),
        ("domains", number(domains(&line.table))),
        ("endpoints", number(endpoints(&line.table))),
        ("calls", number(cut(&line.list).len())),
        ("list_words", number(line.list.len())),
    ])
}

fn judged(judged: &Judged) -> Json {
    Json::Object(match judged {
        Judged::Kernel {
            name,
            title,
            seed,
            exercise,
        } => vec![
            ("kernel", Json::text(*name)),
            ("title", Json::text(*title)),
            ("seed", Json::Number(*seed)),
            ("exercise", Json::text(exercise)),
        ],
        Judged::ReadBack { answers, left } => {
            vec![("answers", source(answers)), ("left", source(left))]
        }
    })
}

fn source(source: &Source) -> Json {
    Json::Object(vec![
        ("file", Json::text(&source.file)),
        ("sha256", Json::text(&source.sha256)),
    ])
}

/// The four checks; of one that failed its failure, of another what it is based on.
fn checks(checks: &[Check; 4]) -> Vec<Json> {
    let check = |(number, check): (usize, &Check)| {
        let mut all = vec![
            ("check", Json::Number(number as u64 + 1)),
            ("name", Json::text(check.name)),
            ("verdict", Json::text(check.verdict())),
        ];
        match &check.judged {
            Err(why) => all.push(("failure", Json::text(why))),
            Ok(found) => all.extend([
                ("in_order", Json::text(found.in_order)),
                ("based_on", Json::texts(&found.based_on)),
                ("not_shown", Json::texts(&found.not_shown)),
            ]),
        }
        Json::Object(all)
    };
    checks.iter().enumerate().map(check).collect()
}

fn named_domains(report: &Report) -> Vec<Json> {
    let domain = |domain: usize| {
        Json::Object(vec![
            ("domain", number(domain)),
            ("name", Json::text_or_null(report.names.domain_name(domain))),
        ])
    };
    (0..domains(&report.line.table)).map(domain).collect()
}

/// A list of rows, or null where there are none to be read.
fn rows<T>(rows: Result<Vec<T>, String>, each: impl Fn(&T) -> Json) -> Json {
    rows.map_or(Json::Null, |rows| list(&rows, each))
}

/// A call of this list by its index, and its answer.
fn call((index, row): (usize, &CallRow)) -> Json {
    let answer = row.answer.as_ref();
    let code = answer.map(|answer| Json::Number(answer.code().into()));
    let words = answer.map(|answer| hex(&answer.words));
    let in_words = answer.map(|answer| answer.in_words.as_str());
    let right = answer.and_then(|answer| answer.right.as_deref());
    Json::Object(vec![
        ("call", number(index)),
        ("words", Json::text(hex(&row.words))),
        ("asked", Json::text(&row.asked)),
        ("code", code.unwrap_or(Json::Null)),
        ("answer", Json::text_or_null(words.as_deref())),
        ("answered", Json::text_or_null(in_words)),
        ("should_be", Json::text_or_null(right)),
    ])
}

fn influence(influenced: &Influenced) -> Json {
    Json::Object(vec![
        ("domain", number(influenced.domain)),
        (
            "could_be_influenced_by",
            list(influenced.could.iter().copied(), number),
        ),
        (
            "source_set",
            list(influenced.sources.iter().copied(), number),
        ),
    ])
}

fn endpoint(report: &Report, row: &EndpointRow) -> Json {
    let name = report.names.endpoint_name(row.endpoint);
    Json::Object(vec![
        ("endpoint", number(row.endpoint)),
        ("name", Json::text_or_null(name)),
        ("owner", number(row.owner)),
        ("capacity", number(row.capacity)),
        ("waiting_before", number(row.waiting_before)),
        ("sent", Json::Number(row.sent)),
        ("received", Json::Number(row.received)),
        ("lost", Json::Number(row.lost)),
        ("waiting_after", number(row.waiting_after)),
        (
            "lost_count_before",
            Json::Number(row.lost_count_before.into()),
        ),
        (
            "lost_count_after",
            Json::Number(row.lost_count_after.into()),
        ),
    ])
}

/// The words as they are, since a fault may leave one that is no set of rights.
fn rights(cell: &RightsCell) -> Json {
    let word = |word: u32| Json::text(format!("{word:08X}"));
    Json::Object(vec![
        ("holder", number(cell.holder)),
        ("target", number(cell.target)),
        ("before", word(cell.before)),
        ("after", word(cell.after)),
    ])
}

#[cfg(test)]
mod tests {
    use super::*;
    use crate::kernels::boundary::PROVED;
    use crate::kernels::faulty;
    use crate::reports::facts::tests::{verdicts, with_report};
    use crate::text::names::Names;

    #[test]
    fn every_fact_has_its_field() {
        let names = Names::given("domain 0 link\nendpoint 1 drives\n");
        let text = with_report(&verdicts(PROVED), &names, json);
        for part in [
            "\"format\": 2,",
            "\"verdict\": \"no check failed\",",
            "\"service\": \"for those who sign to decide\",",
            "\"passed\": 4,",
            "\"run_on\": \"this computer\",\n  \"controller\": null,\n  \"site\": \"<Hall> 4\",",
            "\"asked\": \"domain 0 (link) sends 5 to endpoint 1 (drives)\",\n      \"code\": 17,",
            "\"answered\": \"refused with 17: domain 0 (link) has no SEND on domain 2, the owner of",
            "\"source_set\": [\n        0,\n        1\n      ]",
            "\"made\": \"2026-11-16T11:24:43Z\",",
            "\"file\": \"<script>\\\"&'\",",
            "\"calls\": 9,",
            "\"seed\": 7,",
            "\"name\": \"link\"",
            "\"name\": \"drives\",",
            "\"lost_count_after\": 1\n",
            "\"after\": \"20000001\"\n",
            "\"left\": null\n",
        ] {
            assert!(text.contains(part), "{part}\n{text}");
        }
    }

    #[test]
    fn a_failure_is_reported_in_its_check() {
        let text = with_report(&verdicts(faulty::WRONG_ANSWER), &Names::none(), json);
        assert!(text
            .contains("\"verdict\": \"failed\",\n  \"service\": \"not to be put into service\","));
        assert!(text.contains("\"passed\": 1,\n  \"failed\": 3,"));
        assert!(text.contains("\"failure\": \"exercise list "), "{text}");
    }
}
