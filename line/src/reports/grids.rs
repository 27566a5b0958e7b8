//! The grids of a report's page, each with a row and a column for each domain: the rights, and
//! who could influence whom.

use reference::table::{domains, right, rights_place, RIGHTS};
use reference::words::{content, kind};

use crate::reports::facts::{Influenced, Report, RightsCell};
use crate::reports::page::escaped;
use crate::text::explain::{letters, rights_in_words};

/// Two grids are side by side up to so many domains.
const SIDE_BY_SIDE: usize = 6;

/// More altered rights are in small type and two columns.
const LONG: usize = 20;

/// Who could influence whom by any list, and whose calls count for whom in this one.
pub fn influence(report: &Report) -> String {
    let influenced = report.influenced();
    let of = |heading: &str, set: fn(&Influenced) -> &[usize]| {
        grid(report, heading, "Who", |from, to| {
            influence_cell(from, to, set(&influenced[to]))
        })
    };
    let ever = of("By any list of calls", |one| &one.could);
    let list = of("By this list", |one| &one.sources);
    format!(
        "<h2>Who could influence whom</h2>\n<p>A row is who acts, a column at whom it could show. \
         By any list, an empty cell means: whatever calls are made, by whomever, nothing that the \
         row's domain does shows at the column's domain. The proved function says so of this \
         table. By this list, a column is the source set of its domain: those whose calls count \
         for it.</p>\n{}",
        side_by_side(report, &ever, &list)
    )
}

/// A cell of who could influence whom: a domain does so to itself.
fn influence_cell(from: usize, to: usize, set: &[usize]) -> String {
    match set.contains(&from) {
        _ if from == to => "<td class=\"own\">own</td>".to_string(),
        true => "<td>&#9679;</td>".to_string(),
        false => "<td></td>".to_string(),
    }
}

/// Two grids, side by side where they fit.
fn side_by_side(report: &Report, one: &str, other: &str) -> String {
    let wide = match domains(&report.line.table) > SIDE_BY_SIDE {
        true => " wide",
        false => "",
    };
    format!("<div class=\"grids{wide}\">\n{one}{other}</div>\n")
}

/// The rights before this list and after it, as two grids, and what was altered in words.
pub fn rights(report: &Report) -> String {
    let (altered, before, after) = match report.rights() {
        Ok(cells) => (
            altered(report, &cells),
            rights_grid(report, &cells, "Before", |cell| (cell.before, false)),
            rights_grid(report, &cells, "After", |cell| {
                (cell.after, cell.after != cell.before)
            }),
        ),
        Err(why) => (
            format!("<p>After it, none: {}.</p>\n", escaped(&why)),
            rights_grid(report, &cells_before(report), "Before", |cell| {
                (cell.before, false)
            }),
            String::new(),
        ),
    };
    format!(
        "<h2>Rights before and after this list</h2>\n<p>A row is a holder, a column whom the \
         rights are on: S for SEND, G for GRANT, R for REMOVE, V for REVOKE.</p>\n{altered}\
         {}",
        side_by_side(report, &before, &after)
    )
}

/// The rights before this list, where there are none after it to be read.
fn cells_before(report: &Report) -> Vec<RightsCell> {
    let n = domains(&report.line.table);
    let words = report.line.table[1..=n * n].iter().enumerate();
    let cell = |(place, &word): (usize, &u32)| RightsCell {
        holder: place / n,
        target: place % n,
        before: word,
        after: word,
    };
    words.map(cell).collect()
}

/// The rights that this list altered, in words, those too that are after it as before.
fn altered(report: &Report, cells: &[RightsCell]) -> String {
    let tables = report.tables();
    let each = cells.iter().filter_map(|cell| {
        let change = match cell.before == cell.after {
            true => altered_between(&tables, cell)?,
            false => format!(
                "{} before, {} after",
                held_in_words(cell.before),
                held_in_words(cell.after)
            ),
        };
        let holder = escaped(&report.names.domain(cell.holder));
        let target = escaped(&report.names.domain(cell.target));
        Some(format!("<li>{holder} on {target}: {change}</li>\n"))
    });
    let each: Vec<String> = each.collect();
    match each.len() {
        0 => "<p>This list altered none.</p>\n".to_string(),
        ..=LONG => format!("<ul>\n{}</ul>\n", each.concat()),
        _ => format!("<ul class=\"long\">\n{}</ul>\n", each.concat()),
    }
}

/// What a holder has on a target before and after this list and what in between, where
/// some call altered it, by the tables before each call.
fn altered_between(tables: &[Vec<u32>], cell: &RightsCell) -> Option<String> {
    let place = |table: &[u32]| rights_place(table, cell.holder, cell.target);
    let words = tables.iter().map(|table| table[place(table)]);
    let mut words: Vec<u32> = words.filter(|&word| word != cell.before).collect();
    words.dedup();
    let between: Vec<String> = words.into_iter().map(held_in_words).collect();
    let before = held_in_words(cell.before);
    let altered = !between.is_empty();
    altered.then(|| {
        let between = between.join(", then ");
        format!("{before} before and after, {between} in between")
    })
}

/// Whether a word is a set of rights, which a fault may leave otherwise.
fn is_set(word: u32) -> bool {
    kind(word) == RIGHTS && content(word) <= right::ALL
}

fn held_in_words(word: u32) -> String {
    match content(word) {
        _ if !is_set(word) => format!("the word {word:08X}"),
        0 => "none".to_string(),
        set => rights_in_words(set),
    }
}

/// A grid with a row and a column for each domain, by the cells of each row and column.
fn grid(
    report: &Report,
    heading: &str,
    corner: &str,
    cell: impl Fn(usize, usize) -> String,
) -> String {
    let n = domains(&report.line.table);
    let head: String = (0..n).map(|d| format!("<th>{d}</th>")).collect();
    let row = |row: usize| {
        let name = escaped(&report.names.domain_label(row));
        let cells: String = (0..n).map(|column| cell(row, column)).collect();
        format!("<tr><th class=\"row\">{name}</th>{cells}</tr>\n")
    };
    let rows: String = (0..n).map(row).collect();
    format!(
        "<div class=\"grid\">\n<h3>{heading}</h3>\n<table>\n<thead><tr><th class=\"row\">{corner}\
         </th>{head}</tr></thead>\n<tbody>\n{rows}</tbody>\n</table>\n</div>\n"
    )
}

/// The rights of a grid's cells.
fn rights_grid(
    report: &Report,
    cells: &[RightsCell],
    heading: &str,
    of: fn(&RightsCell) -> (u32, bool),
) -> String {
    let n = domains(&report.line.table);
    grid(report, heading, "Holder", |holder, target| {
        grid_cell(of(&cells[holder * n + target]))
    })
}

fn grid_cell((word, changed): (u32, bool)) -> String {
    let class = match changed {
        true => " class=\"changed\"",
        false => "",
    };
    let held = match content(word) {
        _ if !is_set(word) => format!("{word:08X}"),
        0 if changed => "none".to_string(),
        set => letters(set),
    };
    format!("<td{class}>{held}</td>")
}
