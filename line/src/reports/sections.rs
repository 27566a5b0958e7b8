//! The parts of a report's page: what it is about, what came of it, and where it is signed.

use std::env::consts::{ARCH, OS};

use crate::judging::checklist::{Check, Verdicts};
use crate::reports::facts::{
    archive_logic, archive_text, kit, EndpointRow, Judged, Report, Source, Verdict, ARCHIVE,
    ARCHIVE_SHA256, VERSION,
};
use crate::reports::page::escaped;

/// A row of a table: what it is about, and what is said of it, as HTML.
type Row = (&'static str, String);

/// The heading, with what came of it all.
pub fn head(report: &Report) -> String {
    let (run_on, made) = (run_on(&report.judged), made(report));
    let verdict = verdict(report, &format!("{run_on} {} {made}", counts_of(report)));
    format!("<h1>Commissioning report</h1>\n{verdict}")
}

/// How many checks passed and failed, and how much isn't shown.
fn counts_of(report: &Report) -> String {
    let summary = report.verdicts.summary();
    format!(
        "{} of 4 checks passed, {} failed; {} reported as not shown.",
        summary.passed,
        summary.failed,
        counted_things(summary.not_shown)
    )
}

/// The verdict in a box, with more of it below.
fn verdict(report: &Report, more: &str) -> String {
    let checks = (1..).zip(&report.verdicts.checks);
    let failed = checks.filter(|(_, check)| check.judged.is_err());
    let failed = failed.map(|(number, check)| format!("check {number} ({})", check.name));
    let (class, result) = match report.verdict() {
        Verdict::Passed(4) => ("result", "No check failed".to_string()),
        Verdict::Passed(passed) => (
            "result open",
            format!("No check failed, and {passed} of 4 passed"),
        ),
        Verdict::NothingShown => (
            "result open",
            "No check failed, and none was shown".to_string(),
        ),
        Verdict::Failed => {
            let failed: Vec<String> = failed.collect();
            ("result failed", format!("FAILED: {}", failed.join(", ")))
        }
    };
    let service = match report.verdict().allows_service() {
        true => "",
        false => "<br>Not to be put into service",
    };
    format!("<div class=\"{class}\">{result}{service}<p>{more}</p></div>\n")
}

/// Says what was run, and where.
fn run_on(judged: &Judged) -> String {
    match judged {
        Judged::Kernel { title, .. } => {
            let title = escaped(title);
            format!("Run on this computer: {title}. Nothing was run on a controller.")
        }
        Judged::ReadBack { .. } => {
            "Run on a controller, whose words were read back; no kernel was run here.".to_string()
        }
    }
}

fn counted_things(number: usize) -> String {
    match number {
        1 => "1 thing is".to_string(),
        _ => format!("{number} things are"),
    }
}

/// The date and the time as a reader writes them.
fn made(report: &Report) -> String {
    let made = report.made.trim_end_matches('Z').replacen('T', ", ", 1);
    format!("Made {} UTC.", escaped(&made))
}

/// What the report is about.
pub fn about(report: &Report) -> String {
    let place = [
        ("Controller", blank_or(&report.place.controller)),
        ("Site", blank_or(&report.place.site)),
        ("Firmware", blank_or(&report.place.firmware)),
    ];
    let input = [
        ("Input", escaped(&report.input.file)),
        ("Size", escaped(&report.line.size())),
        (
            "SHA-256 of the input",
            hash(&report.input.sha256) + "<br>of the words as linerun reads them",
        ),
    ];
    let all = place.into_iter().chain(judged(&report.judged)).chain(input);
    let rows = all.chain(built(&report.judged));
    let rows = rows.map(|(what, said)| format!("<tr><th>{what}</th><td>{said}</td></tr>\n"));
    format!(
        "<h2>What was commissioned</h2>\n<table class=\"about\">\n{}</table>\n",
        rows.collect::<String>()
    )
}

/// A field as it was given, or a place to write it by hand.
fn blank_or(field: &Option<String>) -> String {
    match field {
        Some(text) => escaped(text),
        None => "<div class=\"blank\"></div>".to_string(),
    }
}

/// What the verdicts are about.
fn judged(judged: &Judged) -> Vec<Row> {
    let read = |source: &Source| escaped(&source.file) + "<br>" + &hash(&source.sha256);
    match judged {
        Judged::Kernel {
            name,
            title,
            seed,
            exercise,
        } => vec![
            (
                "Run on",
                format!("this computer ({ARCH}, {OS}); nothing was run on a controller"),
            ),
            ("Kernel", escaped(&format!("{name}: {title}"))),
            ("Seed", seed.to_string()),
            (
                "Exercise",
                format!("{}, made from this table", escaped(exercise)),
            ),
        ],
        Judged::ReadBack { answers, left } => vec![
            (
                "Run on",
                "a controller, whose words were read back; no kernel was run here".to_string(),
            ),
            ("Answers", read(answers)),
            ("Table left", read(left)),
        ],
    }
}

/// What this program is built of.
fn built(judged: &Judged) -> [Row; 5] {
    let use_of_it = match judged {
        Judged::Kernel { name, .. } if name.starts_with("balkwizu") => "",
        _ => ", asked only who could influence whom",
    };
    let logic = match archive_logic() {
        Some(logic) => format!("<br>it names the logic<br>{}", hash(logic)),
        None => "<br>it names no logic".to_string(),
    };
    let archive = escaped(ARCHIVE);
    let code = match archive_text() {
        Some(text) => {
            hash(text)
                + "<br>as <code>firmware/identify</code> prints it; with <code>--in PROGRAM</code> \
                   it finds the archive in a controller's program"
        }
        None => "not known: it is no archive for x86-64".to_string(),
    };
    let kit = match kit() {
        Some(kit) => format!("{}, at hand when this program was built", escaped(kit)),
        None => "not known: no kit was at hand when this program was built".to_string(),
    };
    [
        (
            "Archive",
            format!("{archive}, linked into this program{use_of_it}{logic}"),
        ),
        ("SHA-256 of the archive", hash(ARCHIVE_SHA256)),
        ("SHA-256 of its machine code", code),
        ("Kit", kit),
        ("Program", format!("version {VERSION}")),
    ]
}

fn hash(hash: &str) -> String {
    format!("<span class=\"hash\">{}</span>", escaped(hash))
}

/// The four checks, each with what it is based on and what isn't shown.
pub fn checks(verdicts: &Verdicts) -> String {
    let each = (1..).zip(&verdicts.checks);
    let each: String = each.map(|(number, judged)| check(number, judged)).collect();
    format!("<h2>The four checks</h2>\n{each}")
}

fn check(number: usize, check: &Check) -> String {
    let verdict = check.verdict();
    let class = match verdict {
        "failed" => " failed",
        "not shown" => " unshown",
        _ => "",
    };
    let body = match &check.judged {
        Err(why) => format!("<pre>{}</pre>", escaped(why)),
        Ok(found) => {
            let based_on = found.based_on.iter();
            let based_on = based_on.map(|each| format!("<li>{}</li>\n", escaped(each)));
            let not_shown = found.not_shown.iter().map(|each| {
                let each = escaped(each);
                format!("<li class=\"unshown\"><b>not shown:</b> {each}</li>\n")
            });
            let all: String = based_on.chain(not_shown).collect();
            format!("<p>{}</p>\n<ul>\n{all}</ul>", escaped(found.in_order))
        }
    };
    format!(
        "<div class=\"check\">\n<h3>Check {number}, {}: <span class=\"verdict{class}\">{verdict}</span></h3>\n\
         {body}\n</div>\n",
        escaped(check.name)
    )
}

/// What was sent, received and lost at each endpoint by this list.
pub fn counts(report: &Report) -> String {
    let heading = "<h2>Counts at each endpoint, by this list</h2>\n";
    let rows = match report.endpoint_rows() {
        Err(why) => return format!("{heading}<p>None: {}.</p>\n", escaped(&why)),
        Ok(rows) if rows.is_empty() => return format!("{heading}<p>There is no endpoint.</p>\n"),
        Ok(rows) => rows,
    };
    let body: String = rows.iter().map(|row| endpoint(report, row)).collect();
    let all = |of: fn(&EndpointRow) -> u64| rows.iter().map(of).sum::<u64>();
    format!(
        "{heading}<table>\n<thead><tr><th class=\"row\">Endpoint</th><th class=\"row\">Owner</th>\
         <th>Capacity</th><th>Waiting before</th><th>Sent</th><th>Received</th><th>Lost</th>\
         <th>Waiting after</th><th>Lost count before</th><th>Lost count after</th></tr></thead>\n\
         <tbody>\n{body}<tr class=\"all\"><td class=\"row\" colspan=\"3\">All</td><td>{}</td>\
         <td>{}</td><td>{}</td><td>{}</td><td>{}</td><td></td><td></td></tr>\n</tbody>\n</table>\n",
        all(|row| row.waiting_before as u64),
        all(|row| row.sent),
        all(|row| row.received),
        all(|row| row.lost),
        all(|row| row.waiting_after as u64)
    )
}

fn endpoint(report: &Report, row: &EndpointRow) -> String {
    let numbers = [
        row.capacity as u64,
        row.waiting_before as u64,
        row.sent,
        row.received,
        row.lost,
        row.waiting_after as u64,
        row.lost_count_before.into(),
        row.lost_count_after.into(),
    ];
    format!(
        "<tr><td class=\"row\">{}</td><td class=\"row\">{}</td>{}</tr>\n",
        escaped(&report.names.endpoint_label(row.endpoint)),
        escaped(&report.names.domain_label(row.owner)),
        numbers.map(|number| format!("<td>{number}</td>")).concat()
    )
}

/// The verdict beside places for two people to sign. Only a verdict that allows it has a
/// choice to put the line into service.
pub fn signatures(report: &Report) -> String {
    let place = |who: &str| {
        format!("<div>\n<h3>{who}</h3>\n<p>Name</p><p>Date</p><p>Signature</p>\n</div>\n")
    };
    let decided = match report.verdict().allows_service() {
        true => {
            "The line is <span class=\"box\"></span>put into service \
             <span class=\"box\"></span>not put into service"
        }
        false => "The line is not to be put into service. Who signs here has seen this verdict.",
    };
    let run_on = match report.judged {
        Judged::Kernel { .. } => "Run on this computer, not on a controller.",
        Judged::ReadBack { .. } => "Read back from a controller.",
    };
    format!(
        "<section class=\"signatures\">\n<h2>Verdict and signatures</h2>\n<div class=\"sign\">\n{}\
         {}{}</div>\n<p>{decided}</p>\n</section>\n",
        verdict(report, &format!("{} {run_on}", counts_of(report))),
        place("Field engineer"),
        place("Second person")
    )
}

#[cfg(test)]
mod tests {
    use super::*;
    use crate::judging::checklist::Checklist;
    use crate::judging::compare::separate_run;
    use crate::judging::variants::case_of;
    use crate::kernels::boundary::PROVED;
    use crate::kernels::faulty;
    use crate::reports::facts::tests::{verdicts, with_report, with_report_on};
    use crate::reports::page::page;
    use crate::text::input::Input;
    use crate::text::names::Names;

    fn has(page: &str, parts: &[&str]) {
        for part in parts {
            assert!(page.contains(part), "{part}\n{page}");
        }
    }

    #[test]
    fn the_page_has_every_fact() {
        let names = Names::given("domain 0 link\ndomain 2 drives\nendpoint 1 commands\n");
        let page = with_report(&verdicts(PROVED), &names, page);
        has(
            &page,
            &[
                "<div class=\"result\">No check failed<p>Run on this computer: proved archive. Nothing \
                 was run on a controller. 4 of 4 checks passed, 0 failed; 5 things are reported as \
                 not shown. Made 2026-11-16, 11:24:43 UTC.</p>",
                "<tr><th>Controller</th><td><div class=\"blank\"></div></td></tr>",
                "<tr><th>Site</th><td>&lt;Hall&gt; 4</td></tr>",
                "<tr><th>Seed</th><td>7</td></tr>",
                ARCHIVE_SHA256,
                archive_text().unwrap_or("no archive for x86-64"),
                "Check 4, counts: <span class=\"verdict\">passed</span>",
                "<li class=\"unshown\"><b>not shown:</b> messages in turn at endpoint 1",
                "<td class=\"row\">1 commands</td><td class=\"row\">2 drives</td><td>1</td>\
                 <td>0</td><td>2</td><td>1</td><td>1</td><td>0</td><td>0</td><td>1</td></tr>",
                "<li>domain 0 (link) on domain 2 (drives): none before, SEND after</li>",
                "<td class=\"changed\">S</td>",
                "<li class=\"refused\">domain 0 (link) sends 5 to endpoint 1 (commands) &rarr; \
                 <b>refused with 17</b>: domain 0 (link) has no SEND on domain 2 (drives), the owner",
                "<p>9 calls: 6 done, 3 refused. ",
                "<li>domain 1 grants domain 0 (link) SEND on domain 2 (drives) &rarr; done</li>",
                "<h3>Second person</h3>\n<p>Name</p><p>Date</p><p>Signature</p>",
                "<p>The line is <span class=\"box\"></span>put into service ",
                "<svg ",
            ],
        );
    }

    #[test]
    fn the_page_needs_nothing_beside_it_and_takes_no_text_for_its_own() {
        let page = with_report(&verdicts(PROVED), &Names::none(), page);
        has(&page, &["<td>&lt;script&gt;&quot;&amp;&#39;</td>"]);
        for part in ["<script", "<link", "<img", "@import", "url(http", "src="] {
            assert!(!page.contains(part), "{part}");
        }
        let addresses = page.matches("http").count();
        assert_eq!(
            addresses,
            page.matches("xmlns=\"http://www.w3.org/2000/svg\"").count()
        );
    }

    /// Domain 1 grants domain 0 SEND on domain 2, which gives it up: the table is as before.
    #[test]
    fn rights_that_were_granted_and_given_up_are_reported() {
        let line = |list: Vec<u32>| Input {
            table: table_with_revoke(),
            list,
        };
        let page_of = |line: &Input| {
            let verdicts = Checklist::new(PROVED, line, &Names::none(), 1).verdicts();
            with_report_on(line, &verdicts, &Names::none(), page)
        };
        let granted_and_revoked = line(vec![0x6042_0001, 0x8042_0001]);
        let page = page_of(&granted_and_revoked);
        has(
            &page,
            &["<li>domain 0 on domain 2: none before and after, SEND in between</li>"],
        );
        assert!(!page.contains("This list altered none."), "{page}");
        let twice = line(vec![0x6042_0001, 0x6042_0003, 0x8042_0003]);
        let both = "none before and after, SEND, then SEND+GRANT in between</li>";
        has(&page_of(&twice), &[both]);
        has(
            &page_of(&line(vec![0x5000_0000])),
            &["<p>This list altered none.</p>"],
        );
    }

    /// The table of the worked example, where domain 1 has REVOKE on domain 2 too.
    fn table_with_revoke() -> Vec<u32> {
        let mut table = Input::example().table;
        table[6] = 0x2000_000F;
        table
    }

    #[test]
    fn a_failure_is_on_top_and_beside_the_signatures_and_allows_no_service() {
        let page = with_report(&verdicts(faulty::WRONG_ANSWER), &Names::none(), page);
        let verdict = "<div class=\"result failed\">FAILED: check 1 (refusals), check 2 (answers \
                       and table), check 3 (isolation)<br>Not to be put into service<p>";
        let beside = format!("<div class=\"sign\">\n{verdict}");
        let (top, check) = (page.find(verdict), page.find("<pre>exercise list "));
        assert!(top.is_some() && top < check, "{page}");
        has(
            &page,
            &[
                &beside,
                "<p>The line is not to be put into service. Who signs here has seen this verdict.",
                "<b>WRONG</b>: it should be ",
            ],
        );
        assert!(!page.contains("class=\"box\""), "{page}");
    }

    #[test]
    fn where_nothing_is_shown_nothing_is_put_into_service() {
        let mut verdicts = verdicts(PROVED);
        for check in &mut verdicts.checks {
            check.judged.as_mut().unwrap().shown = false;
        }
        let page = with_report(&verdicts, &Names::none(), page);
        let verdict = "No check failed, and none was shown<br>Not to be put into service<p>";
        assert_eq!(page.matches(verdict).count(), 2, "{page}");
        assert!(!page.contains("class=\"box\""), "{page}");
    }

    /// Domain 0 has a right on domain 1, and that on domain 0; nobody has one on domain 2 but
    /// both, and it none on them.
    #[test]
    fn who_could_influence_whom_is_a_grid_beside_that_of_this_list() {
        let page = with_report(&verdicts(PROVED), &Names::none(), page);
        let own = "<td class=\"own\">own</td>";
        let could = "<td>&#9679;</td>";
        let rows = format!(
            "<tr><th class=\"row\">0</th>{own}{could}{could}</tr>\n\
             <tr><th class=\"row\">1</th>{could}{own}{could}</tr>\n\
             <tr><th class=\"row\">2</th><td></td><td></td>{own}</tr>\n"
        );
        assert_eq!(page.matches(&rows).count(), 2, "{page}");
        has(
            &page,
            &["<h3>By any list of calls</h3>", "<h3>By this list</h3>"],
        );
    }

    #[test]
    fn a_long_list_is_whole_and_in_small_type() {
        let line = Input {
            list: vec![0x5000_0000; 4096],
            ..Input::example()
        };
        let verdicts = Verdicts {
            left: Ok(separate_run(&case_of(&line)).unwrap()),
            ..verdicts(PROVED)
        };
        let page = with_report_on(&line, &verdicts, &Names::none(), page);
        let call = "<li>domain 0 asks for its rights &rarr; ";
        assert_eq!(page.matches(call).count(), 4096);
        has(
            &page,
            &[
                "<ol class=\"calls long\" start=\"0\">",
                "<p>4096 calls: 4096 done, 0",
            ],
        );
    }

    #[test]
    fn a_check_on_which_nothing_is_shown_is_no_passed_one() {
        let mut verdicts = verdicts(PROVED);
        verdicts.checks[2].judged.as_mut().unwrap().shown = false;
        let page = with_report(&verdicts, &Names::none(), page);
        has(
            &page,
            &[
                "<div class=\"result open\">No check failed, and 3 of 4 passed<p>Run on this",
                "controller. 3 of 4 checks passed, 0 failed; ",
                "Check 3, isolation: <span class=\"verdict unshown\">not shown</span>",
            ],
        );
    }

    #[test]
    fn words_that_are_no_rights_are_shown_as_they_are() {
        let mut verdicts = verdicts(PROVED);
        let left = verdicts.left.as_mut().unwrap();
        (left.table[1], left.table[2]) = (0x5000_0001, 0x2000_0000);
        let page = with_report(&verdicts, &Names::none(), page);
        has(
            &page,
            &[
                "domain 0 on domain 0: none before, the word 50000001 after",
                "<td class=\"changed\">50000001</td><td class=\"changed\">none</td>",
            ],
        );
        verdicts.left = Err("it never came back".to_string());
        let page = with_report(&verdicts, &Names::none(), self::page);
        has(
            &page,
            &[
                "<p>None: it never came back.</p>",
                "<p>After it, none: it never",
                "<p>9 calls, and no answers: it never came back.</p>",
                "<li>domain 0 sends 5 to endpoint 1</li>",
            ],
        );
    }
}
