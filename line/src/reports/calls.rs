//! The calls of a report's page: all of the list, each with its answer, refused ones marked.

use reference::table::{DOMAINS_MAX, ENDPOINTS_MAX};

use crate::reports::facts::{Answered, CallRow, Report};
use crate::reports::page::escaped;
use crate::text::explain::counted;
use crate::text::names::Names;

/// A list with more calls is in small type, with names alone and the first part of a reason.
const LONG: usize = 60;

/// All calls of this list, each with its answer in words.
pub fn calls(report: &Report) -> String {
    let rows = report.call_rows();
    let summary = summary(report, &rows);
    let heading = "<h2>All calls of this list</h2>";
    let (class, note, each): (_, _, String) = match rows.len() {
        0 => return format!("{heading}\n<p>{summary}</p>\n"),
        ..=LONG => ("calls", "", rows.iter().map(item).collect()),
        _ => {
            let short = rows.iter().map(|row| item(&shortened(row, report.names)));
            ("calls long", SHORT, short.collect())
        }
    };
    format!("{heading}\n<p>{summary}{note}</p>\n<ol class=\"{class}\" start=\"0\">\n{each}</ol>\n")
}

/// What is said of a long list.
const SHORT: &str =
    " The list is long, so reasons are short: <code>balkwizu show FILE --run</code> \
                     and the JSON report have them whole.";

/// A call with names in place of numbers, and with the first part of its reason alone.
fn shortened(row: &CallRow, names: &Names) -> CallRow {
    let answer = row.answer.clone().map(|answer| {
        let first = answer.in_words.split(';').next().unwrap_or_default();
        let in_words = match answer.code() {
            0 => by_names(&answer.in_words, names),
            _ => by_names(first, names),
        };
        Answered { in_words, ..answer }
    });
    CallRow {
        words: row.words.clone(),
        asked: by_names(&row.asked, names),
        answer,
    }
}

/// A text with the names alone of domains and endpoints that have one.
fn by_names(text: &str, names: &Names) -> String {
    let domains = (0..DOMAINS_MAX).map(|d| (names.domain(d), names.domain_name(d)));
    let endpoints = (0..ENDPOINTS_MAX).map(|e| (names.endpoint(e), names.endpoint_name(e)));
    let named = domains
        .chain(endpoints)
        .filter_map(|(whole, name)| Some((whole, name?)));
    named.fold(text.to_string(), |text, (whole, name)| {
        text.replace(&whole, name)
    })
}

/// How many calls there are, and how many of them are refused.
fn summary(report: &Report, rows: &[CallRow]) -> String {
    let calls = counted(rows.len(), "call");
    if let Err(why) = &report.verdicts.left {
        return format!("{calls}, and no answers: {}.", escaped(why));
    }
    let answers = || rows.iter().filter_map(|row| row.answer.as_ref());
    let refused = answers().filter(|answer| answer.code() != 0).count();
    let done = rows.len() - refused;
    let wrong = match answers().filter(|answer| answer.right.is_some()).count() {
        0 => String::new(),
        wrong => format!(" <b>{wrong} answered otherwise than by the reference.</b>"),
    };
    format!(
        "{calls}: {done} done, {refused} refused. Reasons are by the reference's run of the \
         list.{wrong}"
    )
}

fn item(row: &CallRow) -> String {
    let asked = escaped(&row.asked);
    let Some(answer) = &row.answer else {
        return format!("<li>{asked}</li>\n");
    };
    let class = match (&answer.right, answer.code()) {
        (Some(_), _) => " class=\"wrong\"",
        (None, 0) => "",
        (None, _) => " class=\"refused\"",
    };
    format!("<li{class}>{asked} &rarr; {}</li>\n", in_words(answer))
}

/// The answer, with what a refusal begins with in bold type.
fn in_words(answer: &Answered) -> String {
    let said = escaped(&answer.in_words);
    let said = match said.split_once(':') {
        Some((refused, why)) if answer.code() != 0 => format!("<b>{refused}</b>:{why}"),
        _ => said,
    };
    match &answer.right {
        Some(right) => format!("{said} <b>WRONG</b>: it should be {}", escaped(right)),
        None => said,
    }
}

#[cfg(test)]
mod tests {
    use super::*;

    #[test]
    fn a_long_list_has_names_alone_and_short_reasons() {
        let names = Names::given("domain 1 link\nendpoint 0 routes\n");
        let answer = Answered {
            words: vec![0x3040_0012, 0, 0],
            in_words: "refused with 18: endpoint 0 (routes) belongs to domain 2; more".to_string(),
            right: None,
        };
        let row = CallRow {
            words: vec![0x3040_0000],
            asked: "domain 1 (link) receives from endpoint 0 (routes)".to_string(),
            answer: Some(answer),
        };
        let wanted =
            "<li class=\"refused\">link receives from routes &rarr; <b>refused with 18</b>: \
                      routes belongs to domain 2</li>\n";
        assert_eq!(item(&shortened(&row, &names)), wanted);
        assert!(item(&row).contains(">domain 1 (link) receives") && item(&row).contains("; more<"));
    }
}
