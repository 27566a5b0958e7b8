//! The panels of a picture that show rights: as a grid with a row for each holder, and as
//! arrows where these are few.

use reference::table::{domains, rights};

use crate::pictures::arrows::{arrows, right_in_words, Rings, ARROWS_MAX};
use crate::pictures::groups::groups;
use crate::pictures::parts::{
    chip, letter_box, letters_at, panel, EDGE, GAP, INNER, MARGIN, NAMED, NAMED_LETTER, PANEL_HEAD,
    RIGHT_COLOURS, SMALL,
};
use crate::pictures::reach::{holders_of, reached_by};
use crate::pictures::svg::{Drawing, Point};
use crate::text::explain::{counted, NAMED_RIGHTS};
use crate::text::names::Names;

/// The least height of a row of the grid, and the most.
const ROW: f64 = 28.0;
const HIGH_ROW: f64 = 64.0;

/// The widest column of the grid, and the width of a letter in it.
const COLUMN: f64 = 130.0;
const GRID_LETTER: f64 = 17.0;

/// The ground of what the list changed, the dashes of a chain of rights, and the dot of what
/// is not there.
const CHANGED: &str = "#ffe9a8";
const CHAIN: &str = "#8a97a5";
const NONE: &str = "#d5dae0";

/// The rights of one line, before and after its list: the discs keep their places.
pub struct Stage<'a> {
    before: &'a [u32],
    names: &'a Names,
    /// The domain whose arrows alone are drawn.
    of: Option<usize>,
    rings: Rings,
}

impl<'a> Stage<'a> {
    /// The stage of an accepted table.
    pub fn of(before: &'a [u32], names: &'a Names, of: Option<usize>) -> Stage<'a> {
        let rings = Rings::of(&groups(before), names);
        Stage {
            before,
            names,
            of,
            rings,
        }
    }

    /// Draws the rights of a table, the one of the stage or one that a list made of it.
    /// Returns where the panels end.
    pub fn rights_panels(&self, drawing: &mut Drawing, table: &[u32], y: f64) -> f64 {
        let many = arrows(table, self.of).len() > ARROWS_MAX;
        let grid = PANEL_HEAD + self.head(INNER) + ROW * domains(table) as f64 + 68.0;
        let (across, down) = (
            self.rings.size.0 + 36.0,
            self.rings.size.1 + PANEL_HEAD + 14.0,
        );
        let half = (INNER - GAP) / 2.0;
        if many {
            self.grid_panel(drawing, table, (MARGIN, y), (INNER, grid));
            return y + grid;
        }
        if across <= half && domains(table) <= 6 {
            let size = (half, down.max(grid));
            self.arrows_panel(drawing, table, (MARGIN, y), size);
            self.grid_panel(drawing, table, (MARGIN + half + GAP, y), size);
            return y + size.1;
        }
        self.arrows_panel(drawing, table, (MARGIN, y), (INNER, down));
        let below = y + down + GAP;
        self.grid_panel(drawing, table, (MARGIN, below), (INNER, grid));
        below + grid
    }

    fn arrows_panel(&self, drawing: &mut Drawing, table: &[u32], at: Point, size: Point) {
        let of = match self.of {
            Some(domain) => format!("Rights of and on {}", self.names.domain(domain)),
            None => "Who has rights on whom".to_string(),
        };
        let apart = match groups(self.before).len() {
            1 => "",
            _ => ", by connected components, which no list joins",
        };
        let top = panel(drawing, at, size, &format!("{of}{apart}"));
        let free = size.1 - PANEL_HEAD - 14.0 - self.rings.size.1;
        let left = at.0 + (size.0 - self.rings.size.0) / 2.0;
        drawing.start_part((left, top + free / 2.0));
        self.rings.draw(drawing, table, self.names, self.of);
        drawing.end_part();
    }

    /// The width of the longest name.
    fn longest(&self) -> f64 {
        let lengths = (0..domains(self.before)).map(|domain| self.name(domain).len());
        NAMED_LETTER * lengths.max().unwrap_or(0) as f64
    }

    fn name(&self, domain: usize) -> &str {
        self.names.domain_name(domain).unwrap_or("")
    }

    /// The width of a column in a grid that is so wide.
    fn across(&self, wide: f64) -> f64 {
        ((wide - 64.0 - self.longest()) / domains(self.before) as f64).min(COLUMN)
    }

    /// The height of the names over the columns, which go upwards where they are too long.
    fn head(&self, wide: f64) -> f64 {
        match self.longest() {
            0.0 => 26.0,
            long if long < self.across(wide) => 42.0,
            long => long + 34.0,
        }
    }

    fn grid_panel(&self, drawing: &mut Drawing, table: &[u32], at: Point, size: Point) {
        let heading = "Rights of each domain (row) on each (column)";
        let (across, head, n) = (self.across(size.0), self.head(size.0), domains(table));
        let top = panel(drawing, at, size, heading) + head;
        let left = at.0 + 46.0 + self.longest();
        let down = (size.1 - PANEL_HEAD - head - 68.0) / n as f64;
        let down = down.clamp(ROW, HIGH_ROW);
        for domain in 0..n {
            let (x, y) = (across * (domain as f64 + 0.5), down * (domain as f64 + 0.5));
            chip(drawing, (left + x, top - 16.0), 10.0, domain, self.names);
            chip(drawing, (at.0 + 28.0, top + y), 10.0, domain, self.names);
            drawing.text(at.0 + 43.0, top + y, NAMED, self.name(domain));
            match self.longest() < across {
                true => drawing.text(left + x, top - 34.0, NAMED.middle(), self.name(domain)),
                false => drawing.text_up(left + x, top - 30.0, NAMED, self.name(domain)),
            }
        }
        let holders = holders_of(table);
        for target in 0..n {
            let chained = reached_by(&holders, target);
            for holder in 0..n {
                let corner = (left + across * target as f64, top + down * holder as f64);
                let chained = holder != target && chained.contains(&holder);
                self.cell(
                    drawing,
                    table,
                    (holder, target, chained),
                    (corner, (across, down)),
                );
            }
        }
        self.legend(drawing, table, (at.0 + 18.0, at.1 + size.1 - 46.0));
    }

    /// A set of rights in a box of the grid: each right has its own place in it. It is
    /// marked where the list changed it, and where a chain leads to the target without it.
    fn cell(
        &self,
        drawing: &mut Drawing,
        table: &[u32],
        (holder, target, chained): (usize, usize, bool),
        (corner, size): (Point, Point),
    ) {
        let set = rights(table, holder, target);
        let changed = set != rights(self.before, holder, target);
        let ground = if changed { CHANGED } else { "#ffffff" };
        let (across, down) = (size.0 - 4.0, size.1 - 4.0);
        let chain = if set == 0 && chained {
            ", but a chain of rights"
        } else {
            ""
        };
        let title = right_in_words(self.names, (holder, target), set);
        drawing.start_titled(&format!("{title}{chain}"));
        drawing.rect(
            (corner.0 + 2.0, corner.1 + 2.0),
            (across, down),
            4.0,
            ground,
            EDGE,
        );
        let step = ((across - 4.0) / NAMED_RIGHTS.len() as f64).min(GRID_LETTER);
        let (x, y) = (corner.0 + size.0 / 2.0, corner.1 + size.1 / 2.0);
        if !chain.is_empty() {
            drawing.line(&[(x - 11.0, y), (x + 11.0, y)], CHAIN, 1.6, "6 2");
        }
        for (place, (bit, letter, _)) in NAMED_RIGHTS.iter().enumerate().filter(|_| set != 0) {
            let middle = x + step * (place as f64 - (NAMED_RIGHTS.len() - 1) as f64 / 2.0);
            match set & bit {
                0 => drawing.circle(middle, y, 1.5, NONE),
                _ => letter_box(drawing, (middle, y), step, letter, RIGHT_COLOURS[place]),
            }
        }
        drawing.end_part();
    }

    fn legend(&self, drawing: &mut Drawing, table: &[u32], (x, y): Point) {
        for (place, (bit, _, name)) in NAMED_RIGHTS.iter().enumerate() {
            let left = x + 92.0 * place as f64;
            letters_at(drawing, (left + 8.5, y), GRID_LETTER, *bit);
            drawing.text(left + 22.0, y, SMALL, name);
        }
        let below = y + 24.0;
        drawing.line(&[(x, below), (x + 22.0, below)], CHAIN, 1.6, "6 2");
        let chain = "no right, but a chain of rights";
        drawing.text(x + 29.0, below, SMALL, chain);
        if table != self.before {
            drawing.rect((x + 220.0, below - 7.0), (14.0, 14.0), 3.0, CHANGED, EDGE);
            drawing.text(x + 240.0, below, SMALL, "changed");
        }
        let count = arrows(table, self.of).len();
        if count > ARROWS_MAX {
            let count = counted(count, "arrow");
            let said = format!(
                "{count} are too many to draw; those of one domain D: `balkwizu show FILE --svg OUT \
                 --domain D`"
            );
            drawing.text(x + 400.0, y, SMALL, &said);
        }
    }
}
