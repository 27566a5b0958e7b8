//! Who has rights on whom as arrows: a ring of discs for each connected component, with the
//! name of every domain beside its disc. Each arrow has a tooltip that names the rights. Their
//! letters are on the arrow too, unless they would cover those of another.

use std::f64::consts::{PI, TAU};

use reference::table::{domains, rights};

use crate::pictures::parts::{chip, colour, letters_at, EDGE, INNER, NAMED, NAMED_LETTER};
use crate::pictures::svg::{towards, Drawing, Point};
use crate::text::explain::rights_in_words;
use crate::text::names::Names;

/// More arrows than these can't be followed with the eye.
pub const ARROWS_MAX: usize = 40;

const DISC: f64 = 18.0;

/// The length of the ring for each disc on it, and the least radius of a ring of several.
const STEP: f64 = 130.0;
const RADIUS_MIN: f64 = 105.0;

/// What is free above and below a ring, for loops and names, and between two rings.
const ABOVE: f64 = 66.0;
const APART: f64 = 16.0;

/// How far an arrow bends to the middle of its ring, as a part of the way there, and aside
/// from the arrow back.
const INWARD: f64 = 0.35;
const ASIDE: f64 = 20.0;

/// Where on an arrow its letters may be, the best place first, and the size of a letter.
const LETTERS_AT: [f64; 4] = [0.42, 0.55, 0.32, 0.65];
const LETTER: (f64, f64) = (13.0, 16.0);

/// A domain's disc: its middle, the middle of its ring, and the angle from there.
#[derive(Clone, Copy)]
struct Disc {
    at: Point,
    centre: Point,
    angle: f64,
}

/// The discs of a table's domains, and a frame for each component as corner and size.
pub struct Rings {
    discs: Vec<Disc>,
    frames: Vec<(Point, Point)>,
    pub size: Point,
}

/// A curve with two ends and the points that it bends to.
type Curve = [Point; 4];

impl Rings {
    /// Places the domains of components, each in one of them.
    pub fn of(components: &[Vec<usize>], names: &Names) -> Rings {
        let nowhere = Disc {
            at: (0.0, 0.0),
            centre: (0.0, 0.0),
            angle: 0.0,
        };
        let n = components.iter().map(Vec::len).sum();
        let mut rings = Rings {
            discs: vec![nowhere; n],
            frames: Vec::new(),
            size: (0.0, 0.0),
        };
        let longest = (0..n).map(|domain| names.domain_name(domain).unwrap_or("").len());
        let beside = DISC + 10.0 + (NAMED_LETTER * longest.max().unwrap_or(0) as f64).max(40.0);
        let mut corner = (0.0, 0.0);
        for members in components {
            let radius = radius(members.len(), beside);
            let size = (2.0 * (radius + beside), 2.0 * (radius + ABOVE));
            if corner.0 > 0.0 && corner.0 + size.0 > INNER - 36.0 {
                corner = (0.0, rings.size.1 + APART);
            }
            rings.add(members, radius, (corner, size));
            corner.0 += size.0 + APART;
        }
        rings
    }

    fn add(&mut self, members: &[usize], radius: f64, (corner, size): (Point, Point)) {
        let centre = (corner.0 + size.0 / 2.0, corner.1 + size.1 / 2.0);
        for (place, &domain) in members.iter().enumerate() {
            let angle = PI + TAU * place as f64 / members.len() as f64;
            let at = at_angle(centre, angle, radius);
            self.discs[domain] = Disc { at, centre, angle };
        }
        let end = (corner.0 + size.0, corner.1 + size.1);
        self.size = (self.size.0.max(end.0), self.size.1.max(end.1));
        self.frames.push((corner, size));
    }

    /// Draws the arrows of a table, of one domain alone where one is given, and the discs.
    pub fn draw(&self, drawing: &mut Drawing, table: &[u32], names: &Names, of: Option<usize>) {
        for &(corner, size) in self.frames.iter().filter(|_| self.frames.len() > 1) {
            drawing.rect(corner, size, 10.0, "#ffffff", EDGE);
        }
        let arrows = arrows(table, of);
        let curves: Vec<Curve> = arrows.iter().map(|&(h, t, _)| self.curve(h, t)).collect();
        let letters = places_of_letters(&arrows, &curves);
        let titles = arrows
            .iter()
            .map(|&(h, t, set)| right_in_words(names, (h, t), set));
        let titles: Vec<String> = titles.collect();
        for ((title, curve), arrow) in titles.iter().zip(&curves).zip(&arrows) {
            drawing.start_titled(title);
            drawing.arrow(&path(curve), on(curve, 0.9), curve[3], colour(arrow.0));
            drawing.end_part();
        }
        // Letters are over all arrows.
        for ((title, at), arrow) in titles.iter().zip(letters).zip(&arrows) {
            if let Some(at) = at {
                drawing.start_titled(title);
                letters_at(drawing, at, LETTER.0, arrow.2);
                drawing.end_part();
            }
        }
        for (domain, disc) in self.discs.iter().enumerate() {
            chip(drawing, disc.at, DISC, domain, names);
            disc.name(drawing, names.domain_name(domain).unwrap_or(""));
        }
    }

    /// The way of an arrow from one disc to another, inside the ring and aside from the arrow
    /// back, or from a disc to itself.
    fn curve(&self, holder: usize, target: usize) -> Curve {
        let (from, to) = (self.discs[holder], self.discs[target]);
        if holder == target {
            let at = |turn: f64, far: f64| at_angle(from.at, from.loop_angle() + turn, far);
            return [
                at(-0.4, DISC + 1.0),
                at(-0.45, 64.0),
                at(0.45, 64.0),
                at(0.4, DISC + 3.0),
            ];
        }
        let (dx, dy) = (to.at.0 - from.at.0, to.at.1 - from.at.1);
        let aside = ASIDE / dx.hypot(dy);
        let middle = ((from.at.0 + to.at.0) / 2.0, (from.at.1 + to.at.1) / 2.0);
        let bend = (
            middle.0 + INWARD * (from.centre.0 - middle.0) + aside * dy,
            middle.1 + INWARD * (from.centre.1 - middle.1) - aside * dx,
        );
        let start = towards(from.at, bend, DISC + 2.0);
        [start, bend, bend, towards(to.at, bend, DISC + 4.0)]
    }
}

impl Disc {
    /// Returns the direction of its loop, aside from its name.
    fn loop_angle(&self) -> f64 {
        match self.is_aside() {
            true if self.angle.sin() > 0.01 => PI / 2.0,
            true => -PI / 2.0,
            false => 0.0,
        }
    }

    /// Whether its name is on its left or right, not over or under it.
    fn is_aside(&self) -> bool {
        self.angle.cos().abs() > 0.3
    }

    /// Writes a name outside of the ring.
    fn name(&self, drawing: &mut Drawing, name: &str) {
        let (x, y) = self.at;
        match self.is_aside() {
            true if self.angle.cos() > 0.0 => drawing.text(x + DISC + 7.0, y, NAMED, name),
            true => drawing.text(x - DISC - 7.0, y, NAMED.end(), name),
            false => {
                let y = y + self.angle.sin().signum() * (DISC + 22.0);
                drawing.text(x, y, NAMED.middle(), name);
            }
        }
    }
}

/// A holder, a target, and what the one has on the other.
type Arrow = (usize, usize, u32);

/// The arrows of a table, or those from and to one domain.
pub fn arrows(table: &[u32], of: Option<usize>) -> Vec<Arrow> {
    let n = domains(table);
    let pairs = (0..n * n).map(|pair| (pair / n, pair % n));
    let pairs = pairs.filter(|&(h, t)| of.is_none_or(|domain| h == domain || t == domain));
    let held = pairs.map(|(h, t)| (h, t, rights(table, h, t)));
    held.filter(|&(.., set)| set != 0).collect()
}

/// What a holder has on a target, for a tooltip.
pub fn right_in_words(names: &Names, (holder, target): (usize, usize), set: u32) -> String {
    let set = match set {
        0 => "no right".to_string(),
        set => rights_in_words(set),
    };
    let (holder, target) = (names.domain(holder), names.domain(target));
    format!("{holder} has {set} on {target}")
}

/// Where the letters of each arrow are, if there is a place that covers no other's.
fn places_of_letters(arrows: &[Arrow], curves: &[Curve]) -> Vec<Option<Point>> {
    let width = |set: u32| LETTER.0 * f64::from(set.count_ones()) + 2.0;
    let mut taken: Vec<(Point, f64)> = Vec::new();
    let place = |(&(.., set), curve): (&Arrow, &Curve)| {
        let free = |at: &Point| {
            taken.iter().all(|(other, wide)| {
                (other.0 - at.0).abs() > (wide + width(set)) / 2.0
                    || (other.1 - at.1).abs() > LETTER.1
            })
        };
        let found = LETTERS_AT
            .map(|part| on(curve, part))
            .into_iter()
            .find(free);
        taken.extend(found.map(|at| (at, width(set))));
        found
    };
    arrows.iter().zip(curves).map(place).collect()
}

/// The radius of a ring, with so much beside its discs on a page.
fn radius(members: usize, beside: f64) -> f64 {
    match members {
        1 => 0.0,
        _ => (STEP * members as f64 / TAU).clamp(RADIUS_MIN, INNER / 2.0 - 18.0 - beside),
    }
}

fn at_angle(from: Point, angle: f64, far: f64) -> Point {
    (from.0 + far * angle.cos(), from.1 + far * angle.sin())
}

/// The point of a curve at a part of it.
fn on(points: &Curve, part: f64) -> Point {
    let rest = 1.0 - part;
    let shares = [
        rest * rest * rest,
        3.0 * rest * rest * part,
        3.0 * rest * part * part,
        part * part * part,
    ];
    let sum = |of: fn(&Point) -> f64| {
        points
            .iter()
            .zip(shares)
            .map(|(p, share)| of(p) * share)
            .sum()
    };
    (sum(|point| point.0), sum(|point| point.1))
}

/// A curve as SVG writes it.
fn path([from, one, other, to]: &Curve) -> String {
    format!(
        "M{:.1} {:.1} C{:.1} {:.1} {:.1} {:.1} {:.1} {:.1}",
        from.0, from.1, one.0, one.1, other.0, other.1, to.0, to.1
    )
}

#[cfg(test)]
mod tests {
    use super::*;
    use reference::generate::{table_of, Rng};

    fn far(one: Point, other: Point) -> f64 {
        (one.0 - other.0).hypot(one.1 - other.1)
    }

    #[test]
    fn no_arrow_goes_through_another_disc_and_every_ring_fits_the_page() {
        let names = Names::given(&format!("domain 0 {}", "m".repeat(24)));
        for n in 2..=16 {
            let rings = Rings::of(&[(0..n).collect()], &names);
            assert!(
                rings.size.0 <= INNER - 35.9,
                "{n} domains: {:?}",
                rings.size
            );
            for pair in 0..n * n {
                let curve = rings.curve(pair / n, pair % n);
                for other in (0..n).filter(|d| *d != pair / n && *d != pair % n) {
                    let points = (0..=40).map(|part| on(&curve, f64::from(part) / 40.0));
                    let mut gaps = points.map(|at| far(at, rings.discs[other].at));
                    assert!(gaps.all(|gap| gap > DISC), "{n} domains, pair {pair}");
                }
            }
        }
    }

    #[test]
    fn components_have_frames_of_their_own() {
        let components = [vec![0, 3, 4], vec![1], vec![2, 5], vec![6], vec![7]];
        let rings = Rings::of(&components, &Names::none());
        for (&(corner, size), members) in rings.frames.iter().zip(&components) {
            for (domain, disc) in rings.discs.iter().enumerate() {
                let (x, y) = (disc.at.0 - corner.0, disc.at.1 - corner.1);
                let within = 0.0 < x && x < size.0 && 0.0 < y && y < size.1;
                assert_eq!(within, members.contains(&domain));
            }
        }
    }

    #[test]
    fn the_letters_of_no_arrow_cover_those_of_another() {
        let mut rng = Rng::new(21);
        let (mut with, mut all) = (0, 0);
        for n in 2..=16 {
            let table = table_of(&mut rng, n, 0);
            let arrows = arrows(&table, Some(0));
            let rings = Rings::of(&[(0..n).collect()], &Names::none());
            let curves: Vec<Curve> = arrows.iter().map(|&(h, t, _)| rings.curve(h, t)).collect();
            let places = places_of_letters(&arrows, &curves);
            let found: Vec<Point> = places.iter().flatten().copied().collect();
            for (number, &at) in found.iter().enumerate() {
                assert!(found[..number].iter().all(|&other| far(at, other) > 15.0));
            }
            (with, all) = (with + found.len(), all + arrows.len());
        }
        assert!(4 * with > 3 * all, "{with} of {all} have letters");
    }

    #[test]
    fn the_arrows_of_one_domain_are_those_from_it_and_to_it() {
        let table = table_of(&mut Rng::new(5), 6, 0);
        let (all, own) = (arrows(&table, None), arrows(&table, Some(2)));
        let wanted: Vec<Arrow> = all.into_iter().filter(|a| a.0 == 2 || a.1 == 2).collect();
        assert!(!own.is_empty());
        assert_eq!(own, wanted);
    }
}
