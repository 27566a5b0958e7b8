//! The parts that the panels of a picture share: their frames, the discs of domains, the
//! letters of rights, and the sizes and colours of all of them.

use crate::pictures::svg::{Drawing, Point, Style, INK, QUIET};
use crate::text::explain::NAMED_RIGHTS;
use crate::text::names::Names;

pub const WIDTH: f64 = 1080.0;
pub const MARGIN: f64 = 32.0;
pub const INNER: f64 = WIDTH - 2.0 * MARGIN;
pub const GAP: f64 = 20.0;
pub const PANEL_HEAD: f64 = 48.0;

pub const SUBTITLE: Style = Style::new(14.0, QUIET);
pub const HEADING: Style = Style::new(15.0, INK).bold();
pub const SMALL: Style = Style::new(11.0, QUIET);
/// For names, with letters of one width, so that it is known how wide they are.
pub const NAMED: Style = Style::new(11.0, INK).even();
/// The width of its letters.
pub const NAMED_LETTER: f64 = 6.7;
const ON_COLOUR: Style = Style::new(12.0, "#ffffff").bold().middle();

/// The ground of a panel, and its edge.
pub const GROUND: &str = "#f7f8fa";
pub const EDGE: &str = "#e3e7ec";

/// One colour for each domain; white is read well on all of them.
const COLOURS: [&str; 16] = [
    "#3b6fa0", "#c8641b", "#2f8a83", "#b8383d", "#3f8338", "#8a4f7d", "#9a7d0a", "#5f6b76",
    "#5a55a0", "#c2416b", "#147a5a", "#7a5744", "#1f7fb5", "#b31b70", "#4d8012", "#a14a05",
];

/// The colours of the rights, in the order of [`NAMED_RIGHTS`].
pub const RIGHT_COLOURS: [&str; NAMED_RIGHTS.len()] = ["#2563a8", "#2e7d4f", "#b8521f", "#7a3f98"];

/// A domain's colour.
pub fn colour(domain: usize) -> &'static str {
    COLOURS.get(domain).copied().unwrap_or(QUIET)
}

/// Draws a panel with its heading, and returns where its content starts.
pub fn panel(drawing: &mut Drawing, at: Point, size: (f64, f64), heading: &str) -> f64 {
    drawing.rect(at, size, 10.0, GROUND, EDGE);
    drawing.text(at.0 + 18.0, at.1 + 24.0, HEADING, heading);
    at.1 + PANEL_HEAD
}

/// A domain's number on its colour, with its name as a tooltip.
pub fn chip(drawing: &mut Drawing, (x, y): Point, radius: f64, domain: usize, names: &Names) {
    drawing.start_titled(&names.domain(domain));
    drawing.circle(x, y, radius, colour(domain));
    let style = Style {
        size: radius * 1.05,
        ..ON_COLOUR
    };
    drawing.text(x, y, style, &domain.to_string());
    drawing.end_part();
}

/// The letters of a set of rights, each so wide and on its colour, with their middle at a
/// point.
pub fn letters_at(drawing: &mut Drawing, at: Point, wide: f64, set: u32) {
    let rights = NAMED_RIGHTS.iter().zip(RIGHT_COLOURS);
    let held: Vec<_> = rights.filter(|((bit, ..), _)| set & bit != 0).collect();
    let start = at.0 - held.len() as f64 * wide / 2.0;
    for (place, ((_, letter, _), colour)) in held.iter().enumerate() {
        let middle = start + wide * (place as f64 + 0.5);
        letter_box(drawing, (middle, at.1), wide, letter, colour);
    }
}

/// A right's letter on its colour, so wide.
pub fn letter_box(drawing: &mut Drawing, at: Point, wide: f64, letter: &str, colour: &str) {
    let across = wide - 1.0;
    let corner = (at.0 - across / 2.0, at.1 - 8.0);
    drawing.rect(corner, (across, 16.0), 3.0, colour, "none");
    let style = Style {
        size: if wide < 15.0 { 10.0 } else { 11.0 },
        ..ON_COLOUR
    };
    drawing.text(at.0, at.1, style, letter);
}
