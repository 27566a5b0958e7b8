//! How cost grows, as a picture: a small panel for each series, a line in it for each
//! kernel. Where lists grow both axes are logarithmic, since both go over three powers of
//! ten; by domains and endpoints they begin at zero.

use crate::judging::rows::Row;
use line::pictures::sheet::grouped;
use line::pictures::svg::{Drawing, Style, INK, LINE, QUIET};

/// Panels are in columns of so many.
const COLUMNS: usize = 2;
const PANEL: (f64, f64) = (450.0, 280.0);
/// What is left of a panel around its axes: left, right, above and below.
const AROUND: (f64, f64, f64, f64) = (66.0, 24.0, 44.0, 56.0);
const LEGEND: f64 = 56.0;
/// What a letter of a name in the legend takes, and what is around the name.
const LETTER: f64 = 7.8;
const ENTRY: f64 = 64.0;

const TITLE: Style = Style::new(13.0, INK).bold();
const LABEL: Style = Style::new(11.0, QUIET);
const NAME: Style = Style::new(13.0, INK);

/// What the marks of a logarithmic axis are powers of.
const WORDS_BASE: f64 = 8.0;
const TIME_BASE: f64 = 10.0;

/// The colours of the proved kernels, and of the plain ones, whose lines are dashed.
const PROVED: [&str; 4] = ["#1b6ca8", "#d1495b", "#2a8f5c", "#7a4fa3"];
const PLAIN: [&str; 3] = ["#6b7480", "#c08a12", "#3d9aa8"];
const DASHES: &str = "5 3";

/// How a kernel's line looks.
struct Look {
    kernel: String,
    colour: &'static str,
    dashes: &'static str,
}

/// The picture of rows that go by something.
pub fn plot(rows: &[&Row]) -> String {
    let looks = looks(rows);
    let mut drawing = Drawing::default();
    let panels = panels(rows);
    let lines = panels.len().div_ceil(COLUMNS);
    let width = COLUMNS as f64 * PANEL.0;
    let height = LEGEND + lines as f64 * PANEL.1;
    legend(&mut drawing, &looks);
    for (number, panel) in panels.iter().enumerate() {
        let (column, line) = (number % COLUMNS, number / COLUMNS);
        let corner = (column as f64 * PANEL.0, LEGEND + line as f64 * PANEL.1);
        draw_panel(&mut drawing, corner, panel, &looks);
    }
    drawing.finish(width, height, "How cost grows")
}

/// The rows by their names, in order.
fn panels<'a>(rows: &[&'a Row]) -> Vec<Vec<&'a Row>> {
    let mut panels: Vec<Vec<&Row>> = Vec::new();
    for &row in rows {
        match panels.last_mut() {
            Some(panel) if panel[0].name == row.name => panel.push(row),
            _ => panels.push(vec![row]),
        }
    }
    panels
}

/// A look for each kernel of any row.
fn looks(rows: &[&Row]) -> Vec<Look> {
    let mut looks: Vec<Look> = Vec::new();
    for took in rows.iter().flat_map(|row| &row.took) {
        if looks.iter().any(|look| look.kernel == took.kernel) {
            continue;
        }
        let (colours, dashes): (&[&str], _) = match took.ratio {
            Some(_) => (&PROVED, ""),
            None => (&PLAIN, DASHES),
        };
        let before = looks.iter().filter(|look| look.dashes == dashes).count();
        looks.push(Look {
            kernel: took.kernel.clone(),
            colour: colours[before % colours.len()],
            dashes,
        });
    }
    looks
}

fn legend(drawing: &mut Drawing, looks: &[Look]) {
    let (mut x, y) = (24.0, LEGEND / 2.0);
    for look in looks {
        drawing.line(&[(x, y), (x + 28.0, y)], look.colour, 2.0, look.dashes);
        drawing.circle(x + 14.0, y, 2.6, look.colour);
        drawing.text(x + 36.0, y, NAME, &look.kernel);
        x += ENTRY + LETTER * look.kernel.len() as f64;
    }
}

/// Values along a line of the picture.
struct Axis {
    ends: (f64, f64),
    log: bool,
    /// Where the ends stand.
    places: (f64, f64),
}

impl Axis {
    fn place(&self, value: f64) -> f64 {
        let along = |value: f64| if self.log { value.ln() } else { value };
        let (low, high) = (along(self.ends.0), along(self.ends.1));
        let part = (along(value) - low) / (high - low);
        self.places.0 + part * (self.places.1 - self.places.0)
    }
}

fn draw_panel(drawing: &mut Drawing, corner: (f64, f64), panel: &[&Row], looks: &[Look]) {
    let name = &panel[0].name;
    let (title, by) = name.rsplit_once(", by ").unwrap_or((name, ""));
    let measured = match title.starts_with("table check") {
        true => "time of one check",
        false => "time of one run",
    };
    let (across, up) = axes(corner, panel, by == "words");
    drawing.text(across.places.0, corner.1 + 12.0, TITLE, title);
    drawing.text(across.places.0, corner.1 + 30.0, LABEL, measured);
    draw_axes(drawing, &across, &up, growing(by));
    for look in looks {
        draw_line(drawing, panel, look, (&across, &up));
    }
}

/// The axes of a panel: that of what grows, and that of the time.
fn axes(corner: (f64, f64), panel: &[&Row], log: bool) -> (Axis, Axis) {
    let grown = panel.iter().filter_map(|row| row.at).map(|at| at as f64);
    let times = panel.iter().flat_map(|row| &row.took);
    let across = Axis {
        ends: ends(grown, log, WORDS_BASE),
        log,
        places: (corner.0 + AROUND.0, corner.0 + PANEL.0 - AROUND.1),
    };
    let up = Axis {
        ends: ends(times.map(|took| took.nanoseconds), log, TIME_BASE),
        log,
        places: (corner.1 + PANEL.1 - AROUND.3, corner.1 + AROUND.2),
    };
    (across, up)
}

fn draw_axes(drawing: &mut Drawing, across: &Axis, up: &Axis, label: &str) {
    let ((left, right), (bottom, _)) = (across.places, up.places);
    for (value, text) in ticks(up, TIME_BASE, time_in_words) {
        let y = up.place(value);
        drawing.line(&[(left, y), (right, y)], LINE, 0.8, "");
        drawing.text(left - 8.0, y, LABEL.end(), &text);
    }
    for (value, text) in ticks(across, WORDS_BASE, |value| grouped(value as u64)) {
        let x = across.place(value);
        drawing.line(&[(x, bottom), (x, bottom + 4.0)], QUIET, 0.8, "");
        drawing.text(x, bottom + 13.0, LABEL.middle(), &text);
    }
    let middle = (left + right) / 2.0;
    drawing.text(middle, bottom + 31.0, LABEL.middle(), label);
}

/// What a panel goes by, in words.
fn growing(by: &str) -> &'static str {
    match by {
        "words" => "words of the list",
        "n" => "domains, n",
        _ => "endpoints, m",
    }
}

fn draw_line(drawing: &mut Drawing, panel: &[&Row], look: &Look, (across, up): (&Axis, &Axis)) {
    let point = |row: &&Row| {
        let own = row.took.iter().find(|took| took.kernel == look.kernel)?;
        Some((across.place(row.at? as f64), up.place(own.nanoseconds)))
    };
    let points: Vec<(f64, f64)> = panel.iter().filter_map(point).collect();
    if points.is_empty() {
        return;
    }
    drawing.line(&points, look.colour, 1.6, look.dashes);
    for (x, y) in points {
        drawing.circle(x, y, 2.2, look.colour);
    }
}

/// The ends of an axis that has all values: powers of the base where it is logarithmic,
/// otherwise zero and a whole number of steps.
fn ends(values: impl Iterator<Item = f64>, log: bool, base: f64) -> (f64, f64) {
    let (low, high) = values.fold((f64::MAX, f64::MIN_POSITIVE), |(low, high), value| {
        (low.min(value), high.max(value))
    });
    if log {
        let power = |value: f64| value.max(f64::MIN_POSITIVE).log(base);
        // A little less, since 4,096 is no more than the fourth power of eight.
        let (low, high) = ((power(low) + 1e-9).floor(), (power(high) - 1e-9).ceil());
        return (base.powf(low), base.powf(high.max(low + 1.0)));
    }
    let step = step(high);
    (0.0, (high / step - 1e-9).ceil() * step)
}

/// A step of 1, 2, 4 or 5 times a power of ten, or 8, of which at most six make a value.
fn step(high: f64) -> f64 {
    let power = 10f64.powf((high / 6.0).log10().floor());
    let steps = [1.0, 2.0, 4.0, 5.0, 8.0, 10.0].map(|times| times * power);
    let fits = steps.into_iter().find(|step| high / step <= 6.0);
    fits.unwrap_or(10.0 * power)
}

fn ticks(axis: &Axis, base: f64, said: impl Fn(f64) -> String) -> Vec<(f64, String)> {
    let (low, high) = axis.ends;
    let mut ticks = Vec::new();
    let mut value = low;
    while value <= high * (1.0 + 1e-9) {
        ticks.push((value, said(value.round())));
        value = if axis.log {
            value * base
        } else {
            value + step(high)
        };
    }
    ticks
}

/// A time in nanoseconds, or in microseconds from one on.
fn time_in_words(nanoseconds: f64) -> String {
    match nanoseconds {
        0.0 => "0".to_string(),
        few if few < 1000.0 => format!("{few} ns"),
        many => format!("{} µs", many / 1000.0),
    }
}

#[cfg(test)]
mod tests {
    use super::*;
    use crate::judging::rows::{tests::row, Table};

    fn rows() -> Vec<Row> {
        let at = |name: &str, at: usize, nanoseconds: f64| {
            let mut row = row(name, None, [nanoseconds / 10.0, nanoseconds / 20.0]);
            (row.table, row.at) = (Table::Growth, Some(at));
            row
        };
        let words =
            (0..=12).map(|power| at("mixed, by words", 1 << power, 20.0 * (2 << power) as f64));
        let m = (1..=8).map(|m| at("table check, by m", 4 * m, 30.0 * m as f64));
        words.chain(m).collect()
    }

    #[test]
    fn there_is_a_panel_for_each_series_and_a_line_for_each_kernel() {
        let rows = rows();
        let picture = plot(&rows.iter().collect::<Vec<_>>());
        for text in [
            ">mixed<",
            ">table check<",
            ">time of one check<",
            ">balkwizu<",
            ">balkwizu-working<",
            ">plain-gcc<",
        ] {
            assert_eq!(picture.matches(text).count(), 1, "{text}");
        }
        let own = |colour| picture.matches(&format!("stroke=\"{colour}\"")).count();
        // One in the legend and one in each panel.
        assert_eq!([own(PROVED[0]), own(PROVED[1]), own(PLAIN[0])], [3, 3, 3]);
        assert!(!picture.contains("NaN") && !picture.contains("inf"));
    }

    #[test]
    fn an_axis_has_all_values_and_round_ends() {
        let of = |values: &[f64], log, base| ends(values.iter().copied(), log, base);
        assert_eq!(of(&[1.0, 4096.0], true, 8.0), (1.0, 4096.0));
        let (low, high) = of(&[45.0, 58_000.0], true, 10.0);
        assert!((low - 10.0).abs() < 1e-6 && (high - 100_000.0).abs() < 1e-3);
        assert_eq!(of(&[2.0, 16.0], false, 8.0), (0.0, 16.0));
        assert_eq!(of(&[1.0, 32.0], false, 8.0), (0.0, 32.0));
        assert_eq!(of(&[100.0, 310.0], false, 10.0), (0.0, 320.0));
        let axis = Axis {
            ends: (1.0, 4096.0),
            log: true,
            places: (0.0, 100.0),
        };
        let ticks: Vec<String> = ticks(&axis, 8.0, |value| grouped(value as u64))
            .into_iter()
            .map(|(_, text)| text)
            .collect();
        assert_eq!(ticks, ["1", "8", "64", "512", "4,096"]);
        assert!((axis.place(64.0) - 50.0).abs() < 1e-9);
    }

    #[test]
    fn times_have_their_unit() {
        assert_eq!(time_in_words(0.0), "0");
        assert_eq!(time_in_words(500.0), "500 ns");
        assert_eq!(time_in_words(1500.0), "1.5 µs");
        assert_eq!(time_in_words(100_000.0), "100 µs");
    }
}
