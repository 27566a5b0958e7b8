//! Where a picture that is higher than a sheet is cut for print: between its panels, as far
//! as these fit a sheet.

/// What is cut within a panel is shown again at the head of the next part: a strip that is
/// higher than a row.
const SHARED: u32 = 60;

/// The parts of a picture, each from one height to another, none above `most`.
pub fn parts(svg: &str, height: u32, most: u32) -> Vec<(u32, u32)> {
    let panels = panels(svg);
    let mut parts = Vec::new();
    let mut from = 0;
    while from + most < height {
        let (to, next) = match cut(&panels, from, from + most) {
            Some(cut) => (cut, cut),
            None => (from + most, from + most - SHARED),
        };
        parts.push((from, to));
        from = next;
    }
    parts.push((from, height));
    parts
}

/// The last place within a part at which a panel ends and none is cut; not in its first
/// quarter, since that would leave a sheet nearly empty.
fn cut(panels: &[(u32, u32)], from: u32, to: u32) -> Option<u32> {
    let least = from + (to - from) / 4;
    let free = |place: &u32| !panels.iter().any(|(top, end)| top < place && place < end);
    let ends = panels.iter().map(|(_, end)| *end);
    ends.filter(|end| (least..=to).contains(end))
        .filter(free)
        .max()
}

/// The panels of a picture, from where to where each goes: its large boxes.
fn panels(svg: &str) -> Vec<(u32, u32)> {
    let boxes = svg.lines().filter(|line| line.starts_with("<rect "));
    let panels = boxes.filter(|line| line.contains(" rx=\"10\" "));
    let number = |line: &str, name: &str| {
        let value = line.split_once(&format!(" {name}=\""))?.1;
        value.split_once('"')?.0.parse::<f64>().ok()
    };
    let panel = |line| {
        let (y, height) = (number(line, "y")?, number(line, "height")?);
        Some((y as u32, (y + height).ceil() as u32))
    };
    panels.filter_map(panel).collect()
}

#[cfg(test)]
mod tests {
    use super::*;

    fn drawn(panels: &[(u32, u32)]) -> String {
        let each = panels.iter().map(|(y, height)| {
            format!(
                "<rect x=\"32.0\" y=\"{y}.0\" width=\"5.0\" height=\"{height}.0\" rx=\"10\" />\n"
            )
        });
        each.collect()
    }

    #[test]
    fn a_picture_is_cut_between_its_panels() {
        let svg = drawn(&[(90, 400), (90, 300), (510, 400), (930, 300)]);
        assert_eq!(parts(&svg, 1260, 1000), [(0, 910), (910, 1260)]);
        assert_eq!(parts(&svg, 1260, 1260), [(0, 1260)]);
    }

    #[test]
    fn a_panel_that_fits_no_sheet_is_cut_with_a_shared_strip() {
        let svg = drawn(&[(10, 90), (120, 2000)]);
        let cut = [(0, 1000), (940, 1940), (1880, 2150)];
        assert_eq!(parts(&svg, 2150, 1000), cut);
        assert_eq!(parts("", 1500, 1000), [(0, 1000), (940, 1500)]);
    }

    #[test]
    fn the_panels_of_a_drawing_are_found() {
        use crate::pictures::svg::Drawing;
        let mut drawing = Drawing::default();
        drawing.rect((32.0, 92.0), (500.0, 400.5), 10.0, "#f7f8fa", "none");
        drawing.rect((40.0, 100.0), (20.0, 20.0), 5.0, "#ffffff", "none");
        assert_eq!(panels(&drawing.finish(600.0, 600.0, "t")), [(92, 493)]);
    }
}
