//! The picture of a table and a list: who has which right on whom, as a grid and, where they
//! are few, as arrows, the queues with what waits in them, and the first calls of the list;
//! where the list was run, the same of the table after it.

use reference::calls::Call;
use reference::cut;
use reference::table::{
    capacity, domains, endpoint_words, endpoints, lost, name, owner, waiting, SLOTS_PLACE,
};
use reference::words::{content, hex};

use crate::kernels::lent::Ran;
use crate::output::wrapped;
use crate::pictures::diagram::answers_in_words;
use crate::pictures::parts::{
    chip, panel, GAP, INNER, MARGIN, NAMED, PANEL_HEAD, SMALL, SUBTITLE, WIDTH,
};
use crate::pictures::rights::Stage;
use crate::pictures::svg::{Drawing, Style, ARROW, INK, LINE, QUIET};
use crate::text::explain::{call_on_table, counted, senders};
use crate::text::input::Input;
use crate::text::names::Names;

/// The highest picture that programs draw.
const HIGHEST: f64 = 32_767.0;

const QUEUE_ROW: f64 = 48.0;
const CALL_ROW: f64 = 24.0;

/// The height of a further line of a call.
const CALL_LINE: f64 = 16.0;

/// So many letters of a call fit a line, which all have one width.
const CALL_LETTERS: usize = 116;

/// The width of one place of a queue.
const PLACE: f64 = 54.0;

const TITLE: Style = Style::new(24.0, INK).bold();
const SECTION: Style = Style::new(18.0, INK).bold();
const LOST: Style = Style::new(11.0, "#b8383d").bold();

/// The picture of an accepted table and the first `calls` calls of a list; where the list
/// was run, with the table that was left and what each call was answered.
pub fn svg(input: &Input, names: &Names, left: Option<&Ran>, calls: usize) -> String {
    svg_of(input, names, left, calls, None)
}

/// The same with the arrows from and to one domain alone, where one is given.
pub fn svg_of(
    input: &Input,
    names: &Names,
    left: Option<&Ran>,
    calls: usize,
    of: Option<usize>,
) -> String {
    let mut page = Page {
        drawing: Drawing::default(),
        stage: Stage::of(&input.table, names, of),
        names,
        y: 92.0,
    };
    let size = input.size();
    let drawing = &mut page.drawing;
    drawing.text(MARGIN, 40.0, TITLE, "Capability table of the line");
    drawing.text(MARGIN, 66.0, SUBTITLE, &size);
    page.table(&input.table);
    // The table after the list comes before its calls, which may fill the rest.
    match left {
        Some(left) if left.table == input.table => page.section("After the list: the same"),
        Some(left) => {
            page.section("After the list");
            page.table(&left.table);
            page.section("The list");
        }
        None => {}
    }
    let answers = left.map_or(vec![], |left| {
        answers_in_words(input, names, &left.answers, calls)
    });
    page.calls(input, &answers, calls);
    let height = page.y - GAP + MARGIN;
    let title = format!("Capability table: {size}");
    page.drawing.finish(WIDTH, height, &title)
}

/// A picture that grows downwards, panel by panel.
struct Page<'a> {
    drawing: Drawing,
    stage: Stage<'a>,
    names: &'a Names,
    /// Where the next panel starts.
    y: f64,
}

impl Page<'_> {
    fn section(&mut self, heading: &str) {
        self.drawing.text(MARGIN, self.y + 16.0, SECTION, heading);
        self.y += 40.0;
    }

    /// A table's rights and its queues.
    fn table(&mut self, table: &[u32]) {
        self.y = self.stage.rights_panels(&mut self.drawing, table, self.y) + GAP;
        self.queues(table);
    }

    fn queues(&mut self, table: &[u32]) {
        let m = endpoints(table);
        let height = PANEL_HEAD + QUEUE_ROW * m.max(1) as f64 + 10.0;
        let heading = "Queues: who may send, what waits (oldest on the right), who receives";
        let at = (MARGIN, self.y);
        let top = panel(&mut self.drawing, at, (INNER, height), heading);
        if m == 0 {
            let none = "The table has no endpoint.";
            self.drawing.text(MARGIN + 18.0, top + 16.0, SUBTITLE, none);
        }
        for e in 0..m {
            let y = top + QUEUE_ROW * (e as f64 + 0.5) - 4.0;
            queue_row(&mut self.drawing, table, e, self.names, y);
        }
        self.y += height + GAP;
    }

    /// A call in lines, with its answer in one of its own where there is one.
    fn call(&self, call: &Call, table: &[u32], answer: Option<&String>) -> Vec<String> {
        let mut lines = wrapped(&call_on_table(call, table, self.names), CALL_LETTERS);
        if let Some(answer) = answer {
            lines.extend(wrapped(&format!("-> {answer}"), CALL_LETTERS));
        }
        lines
    }

    fn calls(&mut self, input: &Input, answers: &[String], most: usize) {
        let calls = cut(&input.list);
        let fixed = PANEL_HEAD + 8.0 + CALL_ROW;
        let rows: Vec<Vec<String>> = calls
            .iter()
            .enumerate()
            .take(most)
            .map(|(number, call)| self.call(call, &input.table, answers.get(number)))
            .collect();
        let shown = fitting(&rows, HIGHEST - MARGIN - self.y - fixed);
        let more = calls.len() - shown;
        let rest = match (shown, more) {
            (_, 1..) => Some(format!("and {more} more")),
            (0, _) => Some("The list is empty.".to_string()),
            _ => None,
        };
        let calls_high: f64 = rows[..shown].iter().map(|lines| row_height(lines)).sum();
        let height = fixed - CALL_ROW + calls_high + rest.as_ref().map_or(0.0, |_| CALL_ROW);
        let heading = format!("List: {}", counted(calls.len(), "call"));
        let at = (MARGIN, self.y);
        let mut line = panel(&mut self.drawing, at, (INNER, height), &heading) + 6.0;
        for (number, (call, lines)) in calls.iter().zip(&rows[..shown]).enumerate() {
            call_row(&mut self.drawing, self.names, (number, call), lines, line);
            line += row_height(lines);
        }
        if let Some(rest) = rest {
            self.drawing.text(MARGIN + 18.0, line, SUBTITLE, &rest);
        }
        self.y += height + GAP;
    }
}

/// One endpoint: its names, owner and lost count, its senders, and its places with the
/// oldest message next to the owner.
fn queue_row(drawing: &mut Drawing, table: &[u32], e: usize, names: &Names, y: f64) {
    let (left, to) = (MARGIN + 18.0, owner(table, e));
    let title = match names.endpoint_name(e) {
        Some(_) => names.endpoint_label(e),
        None => format!("endpoint {e}"),
    };
    drawing.text(left, y - 14.0, NAMED.bold(), &title);
    drawing.text(left, y, NAMED, &format!("of {}", names.domain(to)));
    drawing.text(left, y + 14.0, SMALL, &format!("name {}", name(table, e)));
    let lost = lost(table, e);
    let style = if lost == 0 { SMALL } else { LOST };
    drawing.text(left + 108.0, y + 14.0, style, &format!("lost {lost}"));
    let senders = senders(table, e);
    let boxes = left + 256.0 + 15.5 * domains(table) as f64;
    for (place, &domain) in senders.iter().rev().enumerate() {
        let x = boxes - 34.0 - 15.5 * place as f64;
        chip(drawing, (x, y), 7.5, domain, names);
    }
    let last = boxes + PLACE * capacity(table, e) as f64;
    level_arrow(drawing, boxes - 24.0, boxes - 3.0, y);
    queue_boxes(drawing, table, e, (boxes, y));
    level_arrow(drawing, last + 2.0, last + 19.0, y);
    chip(drawing, (last + 31.0, y), 11.0, to, names);
}

fn queue_boxes(drawing: &mut Drawing, table: &[u32], e: usize, at: (f64, f64)) {
    let slots = &endpoint_words(table, e)[SLOTS_PLACE..];
    let places = capacity(table, e);
    for (place, &slot) in slots.iter().enumerate().take(places) {
        let left = at.0 + PLACE * (places - 1 - place) as f64;
        let waits = place < waiting(table, e);
        let (fill, edge) = if waits {
            ("#dbe8f5", "#7fa6cc")
        } else {
            ("#ffffff", LINE)
        };
        drawing.rect(
            (left + 1.0, at.1 - 12.0),
            (PLACE - 2.0, 24.0),
            3.0,
            fill,
            edge,
        );
        if waits {
            let message = content(slot).to_string();
            let size = if message.len() > 7 { 8.8 } else { 10.5 };
            let style = Style::new(size, INK).middle().even();
            drawing.text(left + PLACE / 2.0, at.1, style, &message);
        }
    }
}

fn level_arrow(drawing: &mut Drawing, from: f64, to: f64, y: f64) {
    let path = format!("M{from:.1} {y:.1} H{to:.1}");
    drawing.arrow(&path, (from, y), (to, y), ARROW);
}

fn row_height(lines: &[String]) -> f64 {
    CALL_ROW + CALL_LINE * (lines.len() as f64 - 1.0)
}

/// How many rows fit into a height.
fn fitting(rows: &[Vec<String>], height: f64) -> usize {
    let mut left = height;
    let fits = |lines: &&Vec<String>| {
        left -= row_height(lines);
        left >= 0.0
    };
    rows.iter().take_while(fits).count()
}

fn call_row(
    drawing: &mut Drawing,
    names: &Names,
    (number, call): (usize, &Call),
    lines: &[String],
    y: f64,
) {
    let left = MARGIN + 18.0;
    let style = Style::new(11.0, QUIET).even();
    drawing.text(left + 24.0, y, style.end(), &number.to_string());
    match call.caller() {
        Some(caller) => chip(drawing, (left + 40.0, y), 8.0, caller as usize, names),
        None => drawing.circle(left + 40.0, y, 3.0, QUIET),
    }
    drawing.text(left + 56.0, y, style, &hex(&call.words()));
    for (line, text) in lines.iter().enumerate() {
        drawing.text(left + 188.0, y + CALL_LINE * line as f64, NAMED, text);
    }
}

#[cfg(test)]
mod tests {
    use super::*;
    use crate::kernels::boundary::Outcome;
    use crate::pictures::parts::NAMED_LETTER;
    use reference::generate::{list, table_of, Rng};

    fn opened_and_closed(svg: &str) -> bool {
        let opened = svg.matches("<text").count();
        svg.starts_with("<svg ")
            && svg.ends_with("</svg>\n")
            && opened == svg.matches("</text>").count()
            && !svg.contains("NaN")
    }

    fn drawn(input: &Input, calls: usize) -> String {
        svg(input, &Names::none(), None, calls)
    }

    #[test]
    fn the_worked_example_has_an_arrow_for_each_right() {
        let picture = drawn(&Input::example(), 24);
        assert!(opened_and_closed(&picture));
        let bent = picture
            .lines()
            .filter(|line| line.starts_with("<path") && line.contains(" C"))
            .count();
        assert_eq!(bent, 3, "three rights words are not empty");
        assert!(picture.contains("domain 0 sends 5 to endpoint 1"));
        assert!(picture.contains("name 18"));
        let titles = "<title>domain 1 has SEND+GRANT+REMOVE on domain 2</title>";
        assert_eq!(picture.matches(titles).count(), 3, "arrow, letters, cell");
        assert_eq!(
            picture.matches(", but a chain of rights</title>").count(),
            1
        );
    }

    #[test]
    fn the_table_after_the_list_has_its_own_arrows_and_marks() {
        let input = Input::example();
        let mut left = input.table.clone();
        let mut answers = vec![0; 27];
        let (code, calls) = reference::run(&mut left, &input.list, &mut answers);
        assert_eq!(code, 0);
        let left = Ran {
            outcome: Outcome { code, calls },
            table: left,
            answers,
            holders: vec![],
        };
        let picture = svg(&input, &Names::none(), Some(&left), 24);
        let refused = "&gt; refused with 19: nothing waits in endpoint 1; call 4";
        assert!(picture.contains(refused), "{picture}");
        assert!(!drawn(&input, 24).contains("refused"));
        assert!(opened_and_closed(&picture));
        let bent = picture
            .lines()
            .filter(|line| line.starts_with("<path") && line.contains(" C"))
            .count();
        assert_eq!(bent, 3 + 4, "domain 0 was granted SEND on domain 2");
        assert!(picture.contains("After the list"));
        assert!(picture.contains(">changed<") && !drawn(&input, 24).contains(">changed<"));
    }

    #[test]
    fn names_stand_beside_the_numbers() {
        let text = "domain 0 link\nendpoint 0 routes\ntable 10000101 20000001 30000011 40000002 \
                    50000000 60000000 F0000000*8\nlist 50000000";
        let given = crate::text::hex::read(text).unwrap();
        let input = Input::parse(&given.bytes).unwrap();
        let picture = svg(&input, &given.names, None, 24);
        assert!(opened_and_closed(&picture));
        let count = picture.matches(">link<").count();
        assert_eq!(count, 3, "by its disc, row and column");
        assert!(picture.contains(">0 routes<"));
        assert!(picture.contains(">domain 0 (link) asks for its rights<"));
        assert!(!drawn(&input, 24).contains("link"));
    }

    #[test]
    fn a_caller_that_the_table_has_not_is_shown_as_such() {
        let input = Input {
            list: vec![0x5B40_0000],
            ..Input::example()
        };
        let said = ">domain 45, which the table hasn't, asks for its rights<";
        assert!(drawn(&input, 24).contains(said));
    }

    #[test]
    fn the_longest_line_of_a_call_ends_before_its_panel() {
        let end = MARGIN + 18.0 + 188.0 + NAMED_LETTER * CALL_LETTERS as f64;
        assert!(end < WIDTH - MARGIN, "{end}");
    }

    #[test]
    fn no_picture_is_higher_than_programs_draw() {
        let table = table_of(&mut Rng::new(1), 16, 32);
        let list = vec![0x5000_0000; 4096];
        let picture = drawn(&Input { table, list }, 4096);
        let (_, height) = picture.split_once("height=\"").unwrap();
        let (height, _) = height.split_once('"').unwrap();
        let height: f64 = height.parse().unwrap();
        assert!((HIGHEST - CALL_ROW..HIGHEST).contains(&height), "{height}");
        let shown = picture.matches("domain 0 asks for its rights").count();
        assert!(picture.contains(&format!(">and {} more<", 4096 - shown)));
    }

    #[test]
    fn every_size_of_table_is_drawn() {
        let mut rng = Rng::new(1);
        for (n, m) in [(1, 0), (1, 32), (2, 1), (8, 8), (9, 0), (16, 32)] {
            let table = table_of(&mut rng, n, m);
            let list = list(&mut rng, &table, 100);
            assert!(opened_and_closed(&drawn(&Input { table, list }, 24)));
        }
    }
}
