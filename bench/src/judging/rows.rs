//! Measured rows: what a run of `bench speed` found, kept in a file, and the medians over
//! several runs made at different times.

use std::fmt;

use crate::judging::timing::{median, Measured};

/// The tables that rows belong to.
#[derive(Debug, Clone, Copy, PartialEq, Eq)]
pub enum Table {
    Workloads,
    Kinds,
    Lengths,
    Growth,
}

pub const TABLES: [Table; 4] = [
    Table::Workloads,
    Table::Kinds,
    Table::Lengths,
    Table::Growth,
];

impl Table {
    fn name(self) -> &'static str {
        match self {
            Table::Workloads => "workloads",
            Table::Kinds => "kinds",
            Table::Lengths => "lengths",
            Table::Growth => "growth",
        }
    }
}

/// What a kernel took: nanoseconds, and for a proved one its ratio to the faster plain C
/// kernel of the row.
#[derive(Debug, Clone, PartialEq)]
pub struct Took {
    pub kernel: String,
    pub nanoseconds: f64,
    pub ratio: Option<f64>,
}

/// A row of a table: medians of the rounds of one run.
#[derive(Debug, Clone, PartialEq)]
pub struct Row {
    pub table: Table,
    pub name: String,
    /// The length, or the number of domains or endpoints, where the table goes by that.
    pub at: Option<usize>,
    pub goal: Option<f64>,
    pub faster: String,
    pub took: Vec<Took>,
}

impl Row {
    pub fn of(table: Table, name: &str, at: Option<usize>, measured: &Measured) -> Row {
        let faster = measured.faster_plain();
        let took = measured.kernels().map(|kernel| Took {
            kernel: kernel.name.to_string(),
            nanoseconds: 1e9 * measured.seconds(kernel.name).unwrap_or_default(),
            ratio: match kernel.is_plain() {
                true => None,
                false => measured.ratio(kernel.name, faster),
            },
        });
        Row {
            table,
            name: name.to_string(),
            at,
            goal: None,
            faster: faster.to_string(),
            took: took.collect(),
        }
    }

    pub fn with_goal(self, goal: Option<f64>) -> Row {
        Row { goal, ..self }
    }

    /// Whether another is the same row of another run.
    pub fn is_like(&self, other: &Row) -> bool {
        let kernels = |row: &Row| -> Vec<(String, bool)> {
            let each = row.took.iter();
            each.map(|it| (it.kernel.clone(), it.ratio.is_some()))
                .collect()
        };
        let place = |row: &Row| (row.table, row.name.clone(), row.at, row.goal);
        place(self) == place(other) && kernels(self) == kernels(other)
    }
}

/// A run of `bench speed`: when it began, under what it was made, and its rows.
#[derive(Debug, Clone, PartialEq)]
pub struct Run {
    pub time: String,
    /// What must be the same in runs that are merged: each a name and what it was.
    pub made: Vec<(String, String)>,
    pub rows: Vec<Row>,
}

const HEAD: &str = "# A run of bench speed, for bench speed --merge. Fields are separated by tabs.";
const NONE: &str = "-";

/// A run as its file has it.
impl fmt::Display for Run {
    fn fmt(&self, out: &mut fmt::Formatter) -> fmt::Result {
        writeln!(out, "{HEAD}\ntime\t{}", self.time)?;
        for (name, what) in &self.made {
            writeln!(out, "made\t{name}\t{what}")?;
        }
        self.rows.iter().try_for_each(|row| write_row(row, out))
    }
}

fn write_row(row: &Row, out: &mut fmt::Formatter) -> fmt::Result {
    let at = row.at.map_or(NONE.to_string(), |at| at.to_string());
    let goal = row.goal.map_or(NONE.to_string(), |goal| goal.to_string());
    let (table, name, faster) = (row.table.name(), &row.name, &row.faster);
    write!(out, "row\t{table}\t{name}\t{at}\t{goal}\t{faster}")?;
    for took in &row.took {
        let ratio = took.ratio.map_or(NONE.to_string(), |it| format!("{it:.4}"));
        write!(out, "\t{} {:.4} {ratio}", took.kernel, took.nanoseconds)?;
    }
    writeln!(out)
}

/// A run out of its file's text.
pub fn read(text: &str) -> Result<Run, String> {
    let mut run = Run {
        time: String::new(),
        made: Vec::new(),
        rows: Vec::new(),
    };
    for line in text.lines().filter(|line| !line.starts_with('#')) {
        let fields: Vec<&str> = line.split('\t').collect();
        match fields[..] {
            ["time", time] => run.time = time.to_string(),
            ["made", name, what] => run.made.push((name.to_string(), what.to_string())),
            ["row", ref fields @ ..] => {
                let row = read_row(fields);
                run.rows
                    .push(row.ok_or_else(|| format!("no row: `{line}`"))?);
            }
            _ => return Err(format!("no part of a run: `{line}`")),
        }
    }
    match run.time.is_empty() || run.rows.is_empty() {
        true => Err("no run that bench speed recorded".to_string()),
        false => Ok(run),
    }
}

fn read_row(fields: &[&str]) -> Option<Row> {
    let [table, name, at, goal, faster, took @ ..] = fields else {
        return None;
    };
    let took: Option<Vec<Took>> = took.iter().map(|took| read_took(took)).collect();
    Some(Row {
        table: TABLES.into_iter().find(|known| known.name() == *table)?,
        name: name.to_string(),
        at: or_none(at)?,
        goal: or_none(goal)?,
        faster: faster.to_string(),
        took: took?,
    })
}

fn read_took(text: &str) -> Option<Took> {
    let [kernel, nanoseconds, ratio] = text.split(' ').collect::<Vec<_>>().try_into().ok()?;
    Some(Took {
        kernel: kernel.to_string(),
        nanoseconds: nanoseconds.parse().ok()?,
        ratio: or_none(ratio)?,
    })
}

/// A number, or none where there is a dash; nothing where it is neither.
fn or_none<T: std::str::FromStr>(text: &str) -> Option<Option<T>> {
    match text {
        NONE => Some(None),
        _ => text.parse().ok().map(Some),
    }
}

/// The rows of several runs side by side: those that are like each other, in the order of
/// the first run.
pub fn side_by_side(runs: &[Run]) -> Result<Vec<Vec<&Row>>, String> {
    let [first, others @ ..] = runs else {
        return Err("no run is given".to_string());
    };
    for (number, other) in others.iter().enumerate() {
        let before = &runs[..=number];
        if before.iter().any(|run| run.time == other.time) {
            return Err(format!("the run of {} is given twice", other.time));
        }
        if let Some(what) = differently_made(first, other) {
            return Err(what);
        }
        let like = first.rows.iter().zip(&other.rows);
        if first.rows.len() != other.rows.len() || !like.into_iter().all(|(a, b)| a.is_like(b)) {
            return Err(format!("the run of {} has other rows", other.time));
        }
    }
    let all = (0..first.rows.len()).map(|row| runs.iter().map(|run| &run.rows[row]).collect());
    Ok(all.collect())
}

/// A row of the medians over the runs of its like.
pub fn median_row(like: &[&Row]) -> Row {
    let median = |of: &dyn Fn(&Row) -> f64| median(like.iter().map(|&row| of(row)).collect());
    let took = |place: usize| {
        let first = &like[0].took[place];
        let nanoseconds = median(&|row| row.took[place].nanoseconds);
        let ratio = median(&|row| row.took[place].ratio.unwrap_or_default());
        Took {
            kernel: first.kernel.clone(),
            nanoseconds,
            ratio: first.ratio.map(|_| ratio),
        }
    };
    Row {
        took: (0..like[0].took.len()).map(took).collect(),
        ..like[0].clone()
    }
}

/// What two runs don't have in common of how they were made.
fn differently_made(one: &Run, other: &Run) -> Option<String> {
    let nothing = ("nothing".to_string(), "nothing".to_string());
    let of = |run: &Run, place: usize| run.made.get(place).unwrap_or(&nothing).clone();
    let mut places = 0..one.made.len().max(other.made.len());
    let place = places.find(|&place| of(one, place) != of(other, place))?;
    let (of_one, of_other) = (of(one, place), of(other, place));
    Some(format!(
        "runs of different {}: {} ({}) and {} ({})",
        of_one.0, of_one.1, one.time, of_other.1, other.time
    ))
}

#[cfg(test)]
pub mod tests {
    use super::*;

    pub fn row(name: &str, goal: Option<f64>, ratios: [f64; 2]) -> Row {
        let took = |kernel: &str, nanoseconds, ratio| Took {
            kernel: kernel.to_string(),
            nanoseconds,
            ratio,
        };
        Row {
            table: Table::Workloads,
            name: name.to_string(),
            at: None,
            goal,
            faster: "plain-gcc".to_string(),
            took: vec![
                took("balkwizu", 10.0 * ratios[0], Some(ratios[0])),
                took("balkwizu-working", 10.0 * ratios[1], Some(ratios[1])),
                took("plain-gcc", 10.0, None),
            ],
        }
    }

    pub fn run(time: &str, rows: Vec<Row>) -> Run {
        Run {
            time: time.to_string(),
            made: vec![("processor".to_string(), "EPYC".to_string())],
            rows,
        }
    }

    #[test]
    fn a_run_is_read_as_it_is_written() {
        let mut one = row("checks, n 16", Some(0.95), [1.25, 0.5]);
        one.took[0].ratio = None;
        let mut other = row("mixed, by words", None, [2.0, 1.0]);
        (other.table, other.at) = (Table::Growth, Some(64));
        let written = run("2026-11-16 11:36:05 UTC", vec![one, other]);
        assert_eq!(read(&written.to_string()), Ok(written));
        for wrong in [
            "",
            "time\tnow\n",
            "row\tx\n",
            "time\tnow\nrow\tgrowth\tx\t-\t-\n",
        ] {
            assert!(read(wrong).is_err(), "{wrong}");
        }
    }

    #[test]
    fn a_row_of_medians_takes_each_figure_alone() {
        let rows = [[3.0, 1.0], [1.0, 3.0], [2.0, 2.0]].map(|ratios| row("a", None, ratios));
        let median = median_row(&rows.iter().collect::<Vec<_>>());
        assert_eq!(median, row("a", None, [2.0, 2.0]));
    }

    #[test]
    fn only_like_runs_of_different_times_are_merged() {
        let rows = || vec![row("a", Some(1.0), [2.0, 1.0]), row("b", None, [2.0, 1.0])];
        let (one, other) = (run("1", rows()), run("2", rows()));
        let both = [one.clone(), other.clone()];
        assert_eq!(side_by_side(&both).unwrap().len(), 2);
        let wrong = |changed: Run| side_by_side(&[one.clone(), changed]).unwrap_err();
        assert_eq!(wrong(one.clone()), "the run of 1 is given twice");
        let mut changed = other.clone();
        changed.made[0].1 = "Xeon".to_string();
        let differ = "runs of different processor: EPYC (1) and Xeon (2)";
        assert_eq!(wrong(changed), differ);
        let mut less = other.clone();
        less.made.clear();
        assert!(wrong(less).starts_with("runs of different processor: EPYC (1) and nothing"));
        for alter in [
            |run: &mut Run| drop(run.rows.pop()),
            |run: &mut Run| run.rows[0].name = "c".to_string(),
            |run: &mut Run| run.rows[0].goal = None,
            |run: &mut Run| drop(run.rows[1].took.pop()),
        ] {
            let mut changed = other.clone();
            alter(&mut changed);
            assert_eq!(wrong(changed), "the run of 2 has other rows");
        }
        assert!(side_by_side(&[]).is_err());
    }
}
