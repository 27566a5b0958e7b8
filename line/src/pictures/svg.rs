//! A few shapes of SVG, as text: what `picture` draws with.

/// A point of a picture, across from the left and down from the top, or a size.
pub type Point = (f64, f64);

/// The length of an arrow's head, and half of its width.
const HEAD: f64 = 9.0;
const HEAD_HALF: f64 = 3.6;

/// The text colour, the quiet one, and that of lines.
pub const INK: &str = "#1f2933";
pub const QUIET: &str = "#66727f";
pub const LINE: &str = "#c5ccd4";
pub const ARROW: &str = "#5b6774";

/// Where a text's given point is.
#[derive(Clone, Copy)]
pub enum Anchor {
    Start,
    Middle,
    End,
}

/// How a text looks.
#[derive(Clone, Copy)]
pub struct Style {
    pub size: f64,
    pub colour: &'static str,
    pub anchor: Anchor,
    pub bold: bool,
    /// Digits and letters of one width, for words and messages.
    pub even: bool,
}

impl Style {
    pub const fn new(size: f64, colour: &'static str) -> Style {
        Style {
            size,
            colour,
            anchor: Anchor::Start,
            bold: false,
            even: false,
        }
    }

    pub const fn middle(self) -> Style {
        Style {
            anchor: Anchor::Middle,
            ..self
        }
    }

    pub const fn end(self) -> Style {
        Style {
            anchor: Anchor::End,
            ..self
        }
    }

    pub const fn bold(self) -> Style {
        Style { bold: true, ..self }
    }

    pub const fn even(self) -> Style {
        Style { even: true, ..self }
    }
}

/// A drawing that grows by one shape after another.
#[derive(Default)]
pub struct Drawing {
    body: String,
}

impl Drawing {
    /// A text with its middle line at y.
    pub fn text(&mut self, x: f64, y: f64, style: Style, text: &str) {
        let anchor = match style.anchor {
            Anchor::Start => "start",
            Anchor::Middle => "middle",
            Anchor::End => "end",
        };
        let weight = if style.bold {
            " font-weight=\"600\""
        } else {
            ""
        };
        let family = if style.even {
            " font-family=\"DejaVu Sans Mono, Menlo, Consolas, monospace\""
        } else {
            ""
        };
        self.body += &format!(
            "<text x=\"{x:.1}\" y=\"{:.1}\" font-size=\"{}\" fill=\"{}\" \
             text-anchor=\"{anchor}\"{weight}{family}>{}</text>\n",
            y + style.size * 0.35,
            style.size,
            style.colour,
            escaped(text)
        );
    }

    /// A text that goes upwards from a point.
    pub fn text_up(&mut self, x: f64, y: f64, style: Style, text: &str) {
        self.body += &format!("<g transform=\"translate({x:.1} {y:.1}) rotate(-90)\">\n");
        self.text(0.0, 0.0, style, text);
        self.end_part();
    }

    /// A box with round corners; `edge` is its line's colour, or `none`.
    pub fn rect(&mut self, at: (f64, f64), size: (f64, f64), round: f64, fill: &str, edge: &str) {
        self.body += &format!(
            "<rect x=\"{:.1}\" y=\"{:.1}\" width=\"{:.1}\" height=\"{:.1}\" rx=\"{round}\" \
             fill=\"{fill}\" stroke=\"{edge}\"/>\n",
            at.0, at.1, size.0, size.1
        );
    }

    pub fn circle(&mut self, x: f64, y: f64, radius: f64, fill: &str) {
        self.body +=
            &format!("<circle cx=\"{x:.1}\" cy=\"{y:.1}\" r=\"{radius}\" fill=\"{fill}\"/>\n");
    }

    /// A line through points; broken into dashes where there are some, as SVG writes them.
    pub fn line(&mut self, points: &[(f64, f64)], colour: &str, width: f64, dashes: &str) {
        let points: Vec<String> = points
            .iter()
            .map(|(x, y)| format!("{x:.1},{y:.1}"))
            .collect();
        self.body += &format!(
            "<polyline points=\"{}\" fill=\"none\" stroke=\"{colour}\" stroke-width=\"{width}\" \
             stroke-dasharray=\"{dashes}\" stroke-linejoin=\"round\"/>\n",
            points.join(" ")
        );
    }

    /// An arrow along a path, which is given as SVG writes it, with its head where it
    /// comes from one point to another.
    pub fn arrow(&mut self, path: &str, from: Point, to: Point, colour: &str) {
        let back = towards(to, from, HEAD);
        let (dx, dy) = ((to.0 - back.0) / HEAD, (to.1 - back.1) / HEAD);
        let side = |far: f64| (back.0 - far * dy, back.1 + far * dx);
        let (one, other) = (side(HEAD_HALF), side(-HEAD_HALF));
        self.body += &format!(
            "<path d=\"{path}\" fill=\"none\" stroke=\"{colour}\" stroke-width=\"1.4\"/>\n\
             <path d=\"M{:.1} {:.1} L{:.1} {:.1} L{:.1} {:.1} z\" fill=\"{colour}\"/>\n",
            one.0, one.1, to.0, to.1, other.0, other.1
        );
    }

    /// What is drawn from here to [`Drawing::end_part`] has its own corner.
    pub fn start_part(&mut self, corner: Point) {
        self.body += &format!(
            "<g transform=\"translate({:.1} {:.1})\">\n",
            corner.0, corner.1
        );
    }

    /// What is drawn from here to [`Drawing::end_part`] has a tooltip.
    pub fn start_titled(&mut self, title: &str) {
        self.body += &format!("<g><title>{}</title>\n", escaped(title));
    }

    pub fn end_part(&mut self) {
        self.body += "</g>\n";
    }

    /// The whole picture: its size, its name, and what was drawn.
    pub fn finish(self, width: f64, height: f64, title: &str) -> String {
        format!(
            "<svg xmlns=\"http://www.w3.org/2000/svg\" width=\"{width:.0}\" height=\"{height:.0}\" \
             viewBox=\"0 0 {width:.0} {height:.0}\" role=\"img\" \
             font-family=\"DejaVu Sans, Helvetica, Arial, sans-serif\">\n\
             <title>{}</title>\n\
             <rect width=\"100%\" height=\"100%\" fill=\"#ffffff\"/>\n{}</svg>\n",
            escaped(title),
            self.body
        )
    }
}

/// The point so far from one on the way to another.
pub fn towards(from: Point, to: Point, far: f64) -> Point {
    let (dx, dy) = (to.0 - from.0, to.1 - from.1);
    let part = far / dx.hypot(dy).max(1.0);
    (from.0 + part * dx, from.1 + part * dy)
}

/// A text with what means something to SVG written so that it doesn't.
fn escaped(text: &str) -> String {
    let text = text.replace('&', "&amp;").replace('<', "&lt;");
    text.replace('>', "&gt;")
}
