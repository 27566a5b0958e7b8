//! The medians over several runs of `bench speed` as Markdown tables, with the spread,
//! and which goals were met.

use crate::judging::rows::{Row, Run, TABLES};
use crate::judging::timing::median;
use line::text::explain::counted;

/// All tables of runs whose rows are side by side, and what became of the goals.
pub fn tables(runs: &[Run], rows: &[Vec<&Row>]) -> String {
    let mut text = head(runs);
    for table in TABLES {
        let own: Vec<&Vec<&Row>> = rows.iter().filter(|like| like[0].table == table).collect();
        text += &section(&own);
    }
    let kernels = rows.iter().flat_map(|like| proved(like[0]));
    let mut named: Vec<&str> = Vec::new();
    for kernel in kernels {
        if !named.contains(&kernel) {
            named.push(kernel);
            text += &goals_in_words(kernel, rows);
        }
    }
    text
}

fn head(runs: &[Run]) -> String {
    let times: Vec<&str> = runs.iter().map(|run| &run.time[..]).collect();
    let made = runs[0].made.iter();
    let made: Vec<String> = made.map(|(name, what)| format!("{name} {what}")).collect();
    format!(
        "Medians over {}, begun {}; in brackets the least and the most of the runs' own \
         medians. Made with: {}.\n\n",
        counted(runs.len(), "run"),
        times.join(", "),
        made.join("; ")
    )
}

/// The names of the proved kernels in a row.
fn proved(row: &Row) -> impl Iterator<Item = &str> {
    let own = row.took.iter().filter(|took| took.ratio.is_some());
    own.map(|took| &took.kernel[..])
}

/// A table of rows with a column for each kernel that any of them has, and one for goals
/// where there are some.
fn section(rows: &[&Vec<&Row>]) -> String {
    let firsts = || rows.iter().map(|like| like[0]);
    let Some(most) = firsts().max_by_key(|row| row.took.len()) else {
        return String::new();
    };
    let goals = firsts().any(|row| row.goal.is_some());
    let titles = titles_of(most, goals);
    let cells = |like: &&Vec<&Row>| cells_of(like, most, goals).join(" | ");
    let lines: String = rows
        .iter()
        .map(|like| format!("| {} |\n", cells(like)))
        .collect();
    format!(
        "| {} |\n|---|{}\n{lines}\n",
        titles.join(" | "),
        "---:|".repeat(titles.len() - 1)
    )
}

fn titles_of(row: &Row, goals: bool) -> Vec<String> {
    let times = row.took.iter().map(|took| format!("{}, ns", took.kernel));
    let ratios = proved(row).map(|kernel| format!("{kernel} over the faster C"));
    let mut titles = vec!["What".to_string()];
    titles.extend(row.at.map(|_| "at".to_string()));
    titles.extend(times.chain(ratios));
    titles.extend(goals.then(|| "goal".to_string()));
    titles.push("the faster C".to_string());
    titles
}

/// The cells of a row, for the kernels of the one that has most; a dash where it hasn't.
fn cells_of(like: &[&Row], most: &Row, goals: bool) -> Vec<String> {
    let row = like[0];
    let times = most.took.iter().map(|column| {
        let own = |row: &&Row| took(row, &column.kernel).map(|took| took.0);
        let figures: Vec<f64> = like.iter().filter_map(own).collect();
        shown(figures, |figures| format!("{:.1}", median(figures)))
    });
    let ratios = proved(most).map(|kernel| {
        shown(ratios(like, kernel), |ratios| {
            let verdict = row.goal.map(|goal| verdict(&ratios, goal).cell());
            let range = range(&ratios);
            let median = median(ratios);
            format!("{median:.2} ({range}){}", verdict.unwrap_or_default())
        })
    });
    let goal = row.goal.map_or(String::new(), |goal| format!("{goal:.2}"));
    let mut faster: Vec<&str> = like.iter().map(|row| &row.faster[..]).collect();
    faster.sort_unstable();
    faster.dedup();
    let mut cells = vec![row.name.clone()];
    cells.extend(row.at.map(|at| at.to_string()));
    cells.extend(times.chain(ratios));
    cells.extend(goals.then_some(goal));
    cells.push(faster.join(" or "));
    cells
}

/// A cell of figures, or a dash where there are none.
fn shown(figures: Vec<f64>, cell: impl Fn(Vec<f64>) -> String) -> String {
    match figures.is_empty() {
        true => "–".to_string(),
        false => cell(figures),
    }
}

/// The nanoseconds and the ratio of a kernel in a row.
fn took(row: &Row, kernel: &str) -> Option<(f64, Option<f64>)> {
    let own = row.took.iter().find(|took| took.kernel == kernel)?;
    Some((own.nanoseconds, own.ratio))
}

/// The ratios of a kernel, run by run.
fn ratios(like: &[&Row], kernel: &str) -> Vec<f64> {
    let each = like.iter().filter_map(|row| took(row, kernel));
    each.filter_map(|(_, ratio)| ratio).collect()
}

/// The least and the most, as one figure where they look the same.
fn range(ratios: &[f64]) -> String {
    let least = ratios.iter().copied().fold(f64::INFINITY, f64::min);
    let most = ratios.iter().copied().fold(0.0, f64::max);
    let [least, most] = [least, most].map(|it| format!("{it:.2}"));
    match least == most {
        true => least,
        false => format!("{least} to {most}"),
    }
}

/// In how many runs a goal was met.
#[derive(Debug, Clone, Copy, PartialEq, Eq)]
enum Verdict {
    Met,
    Missed,
    Some(usize, usize),
}

/// Ratios and goals are compared as they are printed, with two places.
fn verdict(ratios: &[f64], goal: f64) -> Verdict {
    let places = |it: f64| (100.0 * it).round();
    let met = ratios
        .iter()
        .filter(|&&ratio| places(ratio) <= places(goal));
    match met.count() {
        0 => Verdict::Missed,
        all if all == ratios.len() => Verdict::Met,
        some => Verdict::Some(some, ratios.len()),
    }
}

impl Verdict {
    fn cell(self) -> String {
        match self {
            Verdict::Met => ", met".to_string(),
            Verdict::Missed => ", missed".to_string(),
            Verdict::Some(met, all) => format!(", met in {met} of {all}"),
        }
    }
}

/// Which goals a kernel met each time, missed each time, and met in some runs.
fn goals_in_words(kernel: &str, rows: &[Vec<&Row>]) -> String {
    let (mut met, mut missed, mut some) = (Vec::new(), Vec::new(), Vec::new());
    for like in rows {
        let (Some(goal), ratios) = (like[0].goal, ratios(like, kernel)) else {
            continue;
        };
        if ratios.is_empty() {
            continue;
        }
        let row = format!("{} ({}, goal {goal:.2})", like[0].name, range(&ratios));
        match verdict(&ratios, goal) {
            Verdict::Met => met.push(row),
            Verdict::Missed => missed.push(row),
            Verdict::Some(..) => some.push(row),
        }
    }
    let all = met.len() + missed.len() + some.len();
    if all == 0 {
        return String::new();
    }
    let listed = |title: &str, own: &[String]| match own {
        [] => String::new(),
        _ => format!(" {title}: {}.", own.join("; ")),
    };
    format!(
        "{kernel}: {} of {all} goals met each time.{}{}{}\n\n",
        met.len(),
        listed("Met each time", &met),
        listed("Missed each time", &missed),
        listed("Met in some runs", &some)
    )
}

#[cfg(test)]
mod tests {
    use super::*;
    use crate::judging::rows::side_by_side;
    use crate::judging::rows::tests::{row, run};
    use crate::judging::rows::Table;

    fn three() -> Vec<Run> {
        let with = |working: f64, faster: &str| {
            let mut rows = vec![
                row("sends", Some(0.95), [2.0, working]),
                row("entry", None, [1.0, 8.0]),
                row("mixed, by words", None, [1.0, 1.0]),
                row("check", Some(1.05), [1.0, 1.0]),
            ];
            rows[0].faster = faster.to_string();
            (rows[2].table, rows[2].at) = (Table::Growth, Some(64));
            rows[3].took.remove(1);
            rows
        };
        vec![
            run("1", with(0.96, "plain-gcc")),
            run("2", with(0.948, "plain-clang")),
            run("3", with(0.9, "plain-gcc")),
        ]
    }

    #[test]
    fn a_row_has_the_medians_the_spread_and_the_verdict() {
        let runs = three();
        let text = tables(&runs, &side_by_side(&runs).unwrap());
        assert!(
            text.starts_with("Medians over 3 runs, begun 1, 2, 3; "),
            "{text}"
        );
        let sends = "| sends | 20.0 | 9.5 | 10.0 | 2.00 (2.00), missed | \
                     0.95 (0.90 to 0.96), met in 2 of 3 | 0.95 | plain-clang or plain-gcc |\n";
        assert!(text.contains(sends), "{text}");
        assert!(text.contains("| entry | 10.0 | 80.0 | 10.0 | 1.00 (1.00) | 8.00 (8.00) |  |"));
        let mixed =
            "| mixed, by words | 64 | 10.0 | 10.0 | 10.0 | 1.00 (1.00) | 1.00 (1.00) | plain-gcc |";
        assert!(text.contains(mixed), "{text}");
        let check = "| check | 10.0 | – | 10.0 | 1.00 (1.00), met | – | 1.05 | plain-gcc |";
        assert!(text.contains(check), "{text}");
    }

    #[test]
    fn every_line_of_a_table_has_as_many_cells() {
        let runs = three();
        let text = tables(&runs, &side_by_side(&runs).unwrap());
        for table in text.split("\n\n").filter(|part| part.starts_with('|')) {
            let cells: Vec<usize> = table.lines().map(|it| it.matches('|').count()).collect();
            assert!(cells.iter().all(|&count| count == cells[0]), "{table}");
        }
    }

    #[test]
    fn goals_are_shown_for_each_kernel_that_has_some() {
        let runs = three();
        let text = tables(&runs, &side_by_side(&runs).unwrap());
        let goals =
            "balkwizu: 1 of 2 goals met each time. Met each time: check (1.00, goal 1.05). \
                    Missed each time: sends (2.00, goal 0.95).";
        assert!(text.contains(goals), "{text}");
        let goals = "balkwizu-working: 0 of 1 goals met each time. Met in some runs: \
                    sends (0.90 to 0.96, goal 0.95).";
        assert!(text.contains(goals), "{text}");
    }

    #[test]
    fn a_goal_is_met_by_what_is_printed_as_it() {
        assert_eq!(verdict(&[0.9549, 0.95], 0.95), Verdict::Met);
        assert_eq!(verdict(&[0.956, 0.95], 0.95), Verdict::Some(1, 2));
        assert_eq!(verdict(&[0.956], 0.95), Verdict::Missed);
    }
}
