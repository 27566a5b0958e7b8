//! The end-of-shift sheet, as a table for the terminal and as a page to read and to print.

use reference::table::owner;

use crate::judging::shift::{Ran, Refused, Row, Sheet};
use crate::reports::page::escaped;
use crate::text::explain::{call_in_words, counted, is_code, meaning};
use crate::text::names::Names;

/// So many refused calls are listed.
const REFUSED_MAX: usize = 100;

/// A sheet, and what else is known of the shift.
pub struct Shown<'a> {
    pub sheet: &'a Sheet,
    /// When it is made, as `2026-11-16T11:24:43Z`.
    pub made: &'a str,
    /// The table, for the owners of the endpoints.
    pub table: Option<&'a [u32]>,
    pub names: &'a Names,
    pub ran: &'a [Ran],
    pub refused: &'a [Refused],
    /// The list that was refused itself, and why.
    pub stopped: Option<String>,
}

/// Reads what `linetotals` printed; what is wrong where it isn't a sheet.
pub fn read(printed: &str) -> Result<Sheet, String> {
    let mut lines: Vec<&str> = printed.lines().collect();
    let last = lines.pop().ok_or("it is empty")?;
    let (lists, code) =
        last_line(last).ok_or_else(|| format!("its last line is {}", shown(last)))?;
    let mut rows = Vec::new();
    for (wanted, line) in lines.into_iter().enumerate() {
        let (there, row) = row(line).ok_or_else(|| format!("a line is {}", shown(line)))?;
        if there != wanted as u64 {
            return Err(format!(
                "a line is of endpoint {there} where that of endpoint {wanted} should be"
            ));
        }
        if !row.is_conserved() {
            return Err(format!("the counts of endpoint {there} don't add up"));
        }
        rows.push(row);
    }
    Ok(Sheet { rows, lists, code })
}

/// The number of lists and the code of the last line.
pub fn last_line(line: &str) -> Option<(u64, u32)> {
    let [lists, code] = numbers(line, ["lists", "code"])?;
    let code = u32::try_from(code).ok().filter(|&code| is_code(code))?;
    Some((lists, code))
}

/// The endpoint of a line, and what is counted of it.
fn row(line: &str) -> Option<(u64, Row)> {
    let names = ["endpoint", "sent", "received", "lost", "start", "end"];
    let [endpoint, sent, received, lost, start, end] = numbers(line, names)?;
    let row = Row {
        sent,
        received,
        lost,
        start,
        end,
    };
    Some((endpoint, row))
}

/// The numbers of a line of names, each followed by one.
fn numbers<const N: usize>(line: &str, names: [&str; N]) -> Option<[u64; N]> {
    let words: Vec<&str> = line.split(' ').collect();
    let named = words.chunks(2).map(|pair| pair[0]).eq(names);
    let values: Option<Vec<u64>> = words
        .chunks(2)
        .map(|pair| pair.get(1)?.parse().ok())
        .collect();
    values.filter(|_| named)?.try_into().ok()
}

impl Row {
    /// What was sent and what waited is what was received, what was lost and what waits.
    fn is_conserved(&self) -> bool {
        let sum = |counts: &[u64]| counts.iter().map(|&count| u128::from(count)).sum::<u128>();
        sum(&[self.sent, self.start]) == sum(&[self.received, self.lost, self.end])
    }

    fn counts(&self) -> [u64; 5] {
        [self.sent, self.received, self.lost, self.start, self.end]
    }
}

/// A number with its digits in threes.
pub fn grouped(number: impl Into<u128>) -> String {
    let digits = number.into().to_string();
    let mut text = String::new();
    for (place, digit) in digits.chars().enumerate() {
        if place > 0 && (digits.len() - place) % 3 == 0 {
            text.push(',');
        }
        text.push(digit);
    }
    text
}

/// A line of something else, as it can be shown: its first letters, none that a terminal
/// acts on.
fn shown(line: &str) -> String {
    let plain = line.chars().filter(|letter| !letter.is_control());
    let start: String = plain.take(60).collect();
    match start == line {
        true => format!("`{line}`"),
        false => format!("`{start}`.."),
    }
}

const LOST: usize = 2;
const HEADINGS: [&str; 7] = [
    "Endpoint",
    "Owner",
    "Sent",
    "Received",
    "Lost",
    "Waiting at start",
    "Waiting at end",
];

impl Shown<'_> {
    /// How many lists ran, and what came then.
    fn ended(&self) -> String {
        let lists = match self.sheet.lists {
            1 => "1 list ran".to_string(),
            many => format!("{} lists ran", grouped(many)),
        };
        match (self.sheet.code, &self.stopped) {
            (0, _) => format!("{lists}, all there were."),
            (_, Some(stopped)) => format!("{lists}; then {stopped}. No list after it ran."),
            (code, None) => format!(
                "{lists}; what came then was refused with {code}: {}.",
                meaning(code)
            ),
        }
    }

    /// The cells of the sheet: each endpoint with its owner and its counts, then all of them.
    fn cells(&self) -> Vec<[String; 7]> {
        let names = self.names;
        let rows = self.sheet.rows.iter().enumerate();
        let mut cells: Vec<[String; 7]> = rows
            .map(|(endpoint, row)| {
                let owned = |table| names.domain_label(owner(table, endpoint));
                let labels = [
                    names.endpoint_label(endpoint),
                    self.table.map_or(String::new(), owned),
                ];
                joined(labels, row.counts().map(u128::from))
            })
            .collect();
        let mut all = [0; 5];
        for row in &self.sheet.rows {
            for (sum, count) in all.iter_mut().zip(row.counts()) {
                *sum += u128::from(count);
            }
        }
        cells.push(joined(["all".to_string(), String::new()], all));
        cells
    }

    /// A refused call: where, what was asked, and why it was refused.
    fn refusal(&self, refused: &Refused) -> [String; 3] {
        let list = &self.ran[refused.list].name;
        let more = match refused.times {
            1 => String::new(),
            times => format!(", {times} times"),
        };
        [
            format!("{list}, call {}{more}", refused.first),
            call_in_words(&refused.call, self.names),
            format!("{}: {}", refused.code, meaning(refused.code)),
        ]
    }

    /// What is said of refused calls that aren't listed.
    fn not_listed(&self) -> Option<String> {
        let more = self.refused.len().checked_sub(REFUSED_MAX)?;
        (more > 0).then(|| format!("and {} more", counted(more, "refused call")))
    }

    /// The sheet for a terminal.
    pub fn text(&self) -> String {
        let mut text = format!("End of shift: {}\n", self.ended());
        for ran in self.ran {
            let refused = match ran.refused {
                0 => "none".to_string(),
                some => some.to_string(),
            };
            let calls = counted(ran.calls, "call");
            text += &format!("  {}: {calls}, {refused} refused\n", ran.name);
        }
        let cells = self.cells();
        let heading = HEADINGS.map(str::to_string);
        let width = |at: usize| {
            let all = [&heading].into_iter().chain(&cells);
            all.map(|row| row[at].chars().count()).max().unwrap_or(0)
        };
        text += "\n";
        for (number, row) in [&heading].into_iter().chain(&cells).enumerate() {
            let cell = |at: usize| match at {
                0 | 1 => format!("{:<1$}", row[at], width(at)),
                _ => format!("{:>1$}", row[at], width(at)),
            };
            let endpoint = number.checked_sub(1).and_then(|at| self.sheet.rows.get(at));
            let lost = endpoint.is_some_and(|row| row.lost > 0);
            let mark = if lost { "  messages were lost" } else { "" };
            let line: Vec<String> = (0..7).map(cell).collect();
            text += &format!("{}{mark}\n", line.join("  "));
        }
        text + &self.refusals_in_text()
    }

    fn refusals_in_text(&self) -> String {
        let listed = self.refused.iter().take(REFUSED_MAX).map(|refused| {
            let [at, asked, why] = self.refusal(refused);
            format!("  {at}: {asked}: refused with {why}\n")
        });
        let listed: String = listed.collect();
        let more = self.not_listed().map(|more| format!("  {more}\n"));
        match listed.is_empty() {
            true => String::new(),
            false => format!("\nRefused calls:\n{listed}{}", more.unwrap_or_default()),
        }
    }

    /// The sheet as a page.
    pub fn page(&self) -> String {
        let class = match self.sheet.code {
            0 => "",
            _ => " class=\"refused\"",
        };
        let made = self.made.trim_end_matches('Z').replacen('T', ", ", 1);
        let heading = HEADINGS
            .map(|heading| format!("<th>{heading}</th>"))
            .concat();
        format!(
            "<!DOCTYPE html>\n<html lang=\"en\"><head><meta charset=\"utf-8\">\n\
             <title>End of shift</title>\n<style>\n{STYLE}</style></head>\n<body>\n\
             <h1>End of shift</h1>\n<p>Made {} UTC.</p>\n<p{class}>{}</p>\n{}\
             <h2>Messages of each endpoint</h2>\n<table>\n\
             <thead><tr>{heading}</tr></thead>\n{}</table>\n\
             <p>Sent and waiting at the start is received, lost and waiting at the end, for each \
             endpoint. A lost message was pushed out of a full queue.</p>\n{}</body></html>\n",
            escaped(&made),
            escaped(&self.ended()),
            self.lists_on_page(),
            self.rows_on_page(),
            self.refusals_on_page()
        )
    }

    fn lists_on_page(&self) -> String {
        let rows = self.ran.iter().map(|ran| {
            let (calls, refused) = (grouped(ran.calls as u64), grouped(ran.refused as u64));
            let name = escaped(&ran.name);
            format!("<tr><td>{name}</td><td>{calls}</td><td>{refused}</td></tr>\n")
        });
        let rows: String = rows.collect();
        match rows.is_empty() {
            true => rows,
            false => format!(
                "<h2>Lists, in the order they ran</h2>\n<table class=\"lists\">\n<thead><tr>\
                 <th>List</th><th>Calls</th><th>Refused</th></tr></thead>\n{rows}</table>\n"
            ),
        }
    }

    fn rows_on_page(&self) -> String {
        let cells = self.cells();
        let count = cells.len();
        let rows = cells.iter().enumerate().map(|(number, row)| {
            let cells = row.iter().enumerate().map(|(at, cell)| {
                let lost = at == 2 + LOST && cell != "0";
                let class = if lost { " class=\"lost\"" } else { "" };
                format!("<td{class}>{cell}</td>")
            });
            let last = number + 1 == count;
            let all = if last { " class=\"all\"" } else { "" };
            format!("<tr{all}>{}</tr>\n", cells.collect::<String>())
        });
        rows.collect()
    }

    fn refusals_on_page(&self) -> String {
        if self.ran.is_empty() {
            return String::new();
        }
        let listed = self.refused.iter().take(REFUSED_MAX).map(|refused| {
            let cells = self
                .refusal(refused)
                .map(|cell| format!("<td>{}</td>", escaped(&cell)));
            format!("<tr>{}</tr>\n", cells.concat())
        });
        let listed: String = listed.collect();
        let more = self.not_listed().map(|more| format!("<p>{more}.</p>\n"));
        match listed.is_empty() {
            true => "<p>No call was refused.</p>\n".to_string(),
            false => format!(
                "<h2>Refused calls</h2>\n<table class=\"calls\">\n<thead><tr><th>Where</th>\
                 <th>What was asked</th><th>Refused with</th></tr></thead>\n{listed}</table>\n\
                 <p>Calls are counted from 0 in each list; the first of several is given.</p>\n{}",
                more.unwrap_or_default()
            ),
        }
    }
}

fn joined(labels: [String; 2], counts: [u128; 5]) -> [String; 7] {
    let [endpoint, owner] = labels;
    let [sent, received, lost, start, end] = counts.map(grouped);
    [endpoint, owner, sent, received, lost, start, end]
}

const STYLE: &str = "\
@page { size: A4; margin: 16mm }
body { font: 10pt/1.35 'DejaVu Sans', Helvetica, Arial, sans-serif; max-width: 190mm; margin: 8mm auto; color: #111;
  padding: 0 4mm; -webkit-print-color-adjust: exact; print-color-adjust: exact }
h1 { font-size: 18pt; margin: 0 0 3mm }
h2 { font-size: 12pt; margin: 6mm 0 2mm; break-after: avoid }
table { border-collapse: collapse; width: 100%; font-size: 9pt }
th, td { border: .2mm solid #999; padding: .7mm 1.6mm; text-align: right }
th { background: #eee }
th:first-child, td:first-child, th:nth-child(2), td:nth-child(2), .calls th, .calls td { text-align: left }
.lists th:nth-child(2), .lists td:nth-child(2) { text-align: right }
.calls td, .lists td:first-child { overflow-wrap: anywhere }
.lists { width: auto; min-width: 50% }
.all td { font-weight: bold; border-top-width: .6mm }
.lost { background: #b00020; color: #fff; font-weight: bold }
thead { display: table-header-group }
tr { break-inside: avoid }
.refused { border-left: 2mm solid #b00020; padding-left: 3mm }
@media print { body { margin: 0; padding: 0; max-width: none } }
";

#[cfg(test)]
mod tests {
    use super::*;
    use crate::judging::shift::Shift;
    use reference::example::{LIST_L, TABLE_T};

    const SHEET: &str = "endpoint 0 sent 0 received 0 lost 0 start 0 end 0\n\
                         endpoint 1 sent 1234567 received 1234560 lost 3 start 1 end 5\n\
                         lists 2 code 0\n";

    /// What is shown of a printed sheet, without and with a table.
    fn with<T>(printed: &str, table: Option<&[u32]>, take: impl Fn(&Shown) -> T) -> T {
        take(&Shown {
            sheet: &read(printed).unwrap(),
            made: "2026-11-16T11:24:43Z",
            table,
            names: &Names::given("domain 2 drive\nendpoint 1 drives"),
            ran: &[],
            refused: &[],
            stopped: None,
        })
    }

    #[test]
    fn a_page_has_every_number_and_marks_what_was_lost() {
        let page = with(SHEET, None, |shown| shown.page());
        let row = "<td>1 drives</td><td></td><td>1,234,567</td><td>1,234,560</td>\
                   <td class=\"lost\">3</td>";
        assert!(page.contains(row), "{page}");
        assert!(page.contains("<td>0</td><td></td><td>0</td>"), "{page}");
        assert!(
            page.contains("<p>2 lists ran, all there were.</p>"),
            "{page}"
        );
        assert!(
            page.contains("<p>Made 2026-11-16, 11:24:43 UTC.</p>"),
            "{page}"
        );
        let owned = with(SHEET, Some(&TABLE_T), |shown| shown.page());
        assert!(
            owned.contains("<td>1 drives</td><td>2 drive</td>"),
            "{owned}"
        );
    }

    #[test]
    fn a_table_for_the_terminal_has_every_number() {
        let text = with(SHEET, Some(&TABLE_T), |shown| shown.text());
        let lines: Vec<&str> = text.lines().collect();
        assert_eq!(lines[0], "End of shift: 2 lists ran, all there were.");
        let wanted =
            "1 drives  2 drive  1,234,567  1,234,560     3                 1               \
                      5  messages were lost";
        assert_eq!(lines[4], wanted);
        assert!(lines[5].starts_with("all "), "{text}");
    }

    #[test]
    fn lists_and_refused_calls_are_shown_with_their_places() {
        let mut shift = Shift::begin(&TABLE_T);
        shift.run("early <1>", &LIST_L).unwrap();
        shift.run("late", &[0x3080_0100, 0x3080_0100]).unwrap();
        let sheet = shift.sheet(7).unwrap();
        let shown = Shown {
            sheet: &sheet,
            made: "",
            table: Some(&TABLE_T),
            names: &Names::none(),
            ran: &shift.ran,
            refused: &shift.refused,
            stopped: Some("night.bin is refused with 7".to_string()),
        };
        let page = shown.page();
        for part in [
            "<p class=\"refused\">2 lists ran; then night.bin is refused with 7. No list after",
            "<tr><td>early &lt;1&gt;</td><td>9</td><td>3</td></tr>",
            "<tr><td>late, call 0, 2 times</td><td>domain 2 receives from endpoint 1</td>\
             <td>19: nothing waits</td></tr>",
        ] {
            assert!(page.contains(part), "{part}: {page}");
        }
        let text = shown.text();
        let last = "  late, call 0, 2 times: domain 2 receives from endpoint 1: refused with 19: \
                    nothing waits\n";
        assert!(text.ends_with(last), "{text}");
        assert!(text.contains("  early <1>: 9 calls, 3 refused\n"), "{text}");
    }

    #[test]
    fn refused_calls_are_not_listed_without_end() {
        let mut shift = Shift::begin(&TABLE_T);
        let list: Vec<u32> = (0..103).map(|content| 0xF000_0000 | content).collect();
        shift.run("strays", &list).unwrap();
        let sheet = shift.sheet(0).unwrap();
        let shown = Shown {
            sheet: &sheet,
            made: "",
            table: None,
            names: &Names::none(),
            ran: &shift.ran,
            refused: &shift.refused,
            stopped: None,
        };
        assert!(shown.text().ends_with("  and 3 refused calls more\n"));
        assert!(shown.page().contains("<p>and 3 refused calls more.</p>"));
    }

    #[test]
    fn a_refused_list_and_a_refused_table_are_shown() {
        let refused = with("lists 0 code 4\n", None, |shown| shown.page());
        assert!(refused.contains("0 lists ran; what came then was refused with 4"));
    }

    #[test]
    fn a_sheet_that_lacks_a_line_is_refused() {
        let without = |gone: usize| {
            let lines = SHEET.lines().enumerate().filter(|(at, _)| *at != gone);
            let left: String = lines.map(|(_, line)| format!("{line}\n")).collect();
            read(&left)
        };
        let why = "a line is of endpoint 1 where that of endpoint 0 should be";
        assert_eq!(without(0), Err(why.to_string()));
        assert!(without(2)
            .unwrap_err()
            .starts_with("its last line is `endpoint 1"));
        assert_eq!(read(SHEET).unwrap().printed(), SHEET);
    }

    #[test]
    fn no_number_is_too_large_for_a_sheet() {
        let most = u64::MAX;
        let line = |end| format!("endpoint 0 sent 1 received 1 lost {most} start 0 end {end}\n");
        let wrong = read(&(line(1) + "lists 1 code 0\n"));
        assert_eq!(
            wrong,
            Err("the counts of endpoint 0 don't add up".to_string())
        );
        let line = |e| format!("endpoint {e} sent {most} received {most} lost 1 start 1 end 0\n");
        let text = |last| format!("{}{}{last}", line(0), line(1));
        let page = with(&text("lists 1 code 0\n"), None, |shown| shown.page());
        assert!(page.contains("<td>36,893,488,147,419,103,230</td>"));
        assert!(read(&text("lists 1 code 4294967300\n")).is_err());
        assert!(read(&text("lists 1 code 98\n")).is_err());
    }

    #[test]
    fn what_is_no_sheet_or_does_not_add_up_is_refused() {
        assert!(read("").is_err());
        assert!(read("calls 0 code 7\n").is_err());
        assert!(read("endpoint 0 sent 1\nlists 1 code 0\n").is_err());
        let wrong = "endpoint 0 sent 2 received 0 lost 0 start 0 end 1\nlists 1 code 0\n";
        assert_eq!(
            read(wrong),
            Err("the counts of endpoint 0 don't add up".to_string())
        );
    }
}
