//! A report as one page of HTML that needs nothing beside it: no script, no network, no
//! font of its own. It is laid out for A4.

use reference::check_table;

use crate::pictures::picture;
use crate::reports::calls::calls;
use crate::reports::facts::Report;
use crate::reports::parts::parts;
use crate::reports::{grids, sections};

/// How many calls the picture shows: the page has all of them in words.
const CALLS_IN_PICTURE: usize = 12;

/// The width of a printed page to the height of what fits it, beside the heading.
const SHEET: (u32, u32) = (3, 4);

/// The page of a report.
pub fn page(report: &Report) -> String {
    let sections = [
        sections::head(report),
        sections::about(report),
        sections::checks(report.verdicts),
        sections::counts(report),
        grids::rights(report),
        grids::influence(report),
        sections::signatures(report),
        calls(report),
        picture(report),
    ];
    format!(
        "<!DOCTYPE html>\n<html lang=\"en\">\n<head>\n<meta charset=\"utf-8\">\n\
         <meta name=\"viewport\" content=\"width=device-width\">\n\
         <title>Commissioning report: {}</title>\n<style>\n{STYLE}</style>\n</head>\n\
         <body>\n{}</body>\n</html>\n",
        escaped(&report.input.file),
        sections.concat()
    )
}

/// The picture: whole on the screen, and in print too where it fits a page. A higher one
/// is printed in parts.
fn picture(report: &Report) -> String {
    let left = report.left().ok();
    let left = left.filter(|ran| check_table(&ran.table) == 0);
    let svg = picture::svg(report.line, report.names, left, CALLS_IN_PICTURE);
    let heading = "The picture of the table and the list";
    let (width, height) = size(&svg);
    let most = width * SHEET.1 / SHEET.0;
    if height <= most {
        return format!("<section class=\"picture\">\n<h2>{heading}</h2>\n{svg}</section>\n");
    }
    let parts = parts(&svg, height, most);
    let part = |(number, (from, to)): (usize, &(u32, u32))| {
        format!(
            "<section class=\"picture part\">\n<h2>{heading}, part {} of {}</h2>\n\
             <svg viewBox=\"0 {from} {width} {}\"><use href=\"#picture\"/></svg>\n</section>\n",
            number + 1,
            parts.len(),
            to - from
        )
    };
    format!(
        "<section class=\"picture whole\">\n<h2>{heading}</h2>\n\
         <svg viewBox=\"0 0 {width} {height}\"><g id=\"picture\">\n{svg}</g></svg>\n</section>\n{}",
        parts.iter().enumerate().map(part).collect::<String>()
    )
}

/// The width and the height of a picture, by its view box; 0 where it has none.
fn size(svg: &str) -> (u32, u32) {
    let view_box = svg.split_once("viewBox=\"0 0 ");
    let size = view_box.and_then(|(_, rest)| rest.split_once('"')?.0.split_once(' '));
    let numbers =
        size.and_then(|(width, height)| Some((width.parse().ok()?, height.parse().ok()?)));
    numbers.unwrap_or_default()
}

/// A text with what HTML would take for its own written out.
pub fn escaped(text: &str) -> String {
    let mut written = String::new();
    for c in text.chars() {
        match c {
            '&' => written += "&amp;",
            '<' => written += "&lt;",
            '>' => written += "&gt;",
            '"' => written += "&quot;",
            '\'' => written += "&#39;",
            c => written.push(c),
        }
    }
    written
}

const STYLE: &str = "\
@page { size: A4; margin: 16mm 15mm 18mm;
  @bottom-left { content: 'Commissioning report'; font: 8pt sans-serif; color: #555 }
  @bottom-right { content: 'page ' counter(page) ' of ' counter(pages); font: 8pt sans-serif; color: #555 } }
* { box-sizing: border-box }
body { font: 10pt/1.35 'DejaVu Sans', Helvetica, Arial, sans-serif; color: #111; max-width: 180mm; margin: 8mm auto;
  padding: 0 4mm; -webkit-print-color-adjust: exact; print-color-adjust: exact }
h1 { font-size: 18pt; margin: 0 0 3mm }
h2 { font-size: 12pt; margin: 7mm 0 2mm; border-bottom: .3mm solid #999; break-after: avoid }
h3 { font-size: 10pt; margin: 3mm 0 1mm; break-after: avoid }
p, ul { margin: 1mm 0; font-size: 9pt }
ul { padding-left: 5mm }
ul.long { font-size: 7pt; columns: 2; column-gap: 8mm }
li { overflow-wrap: anywhere; break-inside: avoid }
.result { border: .6mm solid #2e7d4f; border-left-width: 3mm; padding: 2mm 4mm; font-size: 12pt; font-weight: 600 }
.result p { font-size: 9pt; font-weight: 400 }
.failed { border-color: #b00020 }
.open { border-color: #666; border-style: dashed; border-left-style: solid }
.verdict { border: .3mm solid #2e7d4f; padding: 0 1.5mm; margin-left: 1mm }
.verdict.failed { border-color: #b00020; background: #b00020; color: #fff }
.verdict.unshown { border-style: dashed; border-color: #666 }
.unshown { color: #444 }
.check { margin: 0 0 3mm; font-size: 9pt }
pre { font: 8pt/1.3 'DejaVu Sans Mono', Consolas, monospace; white-space: pre-wrap; overflow-wrap: anywhere;
  border-left: 1.5mm solid #b00020; padding-left: 2mm; margin: 1mm 0 }
table { border-collapse: collapse; width: 100%; font-size: 8.5pt }
th, td { border: .2mm solid #999; padding: .5mm 1.2mm; text-align: right }
td { white-space: nowrap }
th { background: #eee; font-weight: 600 }
thead { display: table-header-group }
tr { break-inside: avoid }
tr.all td { font-weight: 600; border-top-width: .5mm }
.about th, th.row, td.row { text-align: left }
td.row { white-space: normal; overflow-wrap: break-word }
.about th { width: 34mm; vertical-align: top }
.about td { text-align: left; white-space: normal; overflow-wrap: anywhere }
.blank { height: 7mm }
code { font: 8pt 'DejaVu Sans Mono', Consolas, monospace }
.hash { font: 7.5pt 'DejaVu Sans Mono', Consolas, monospace }
.grids { display: grid; grid-template-columns: 1fr 1fr; gap: 5mm }
.grids.wide { grid-template-columns: 1fr }
.grid { break-inside: avoid }
.grid table { table-layout: fixed; font-size: 7.5pt }
.grid td, .grid th { text-align: center; padding: .5mm .3mm; white-space: nowrap; overflow: hidden }
.grid th.row { width: 22%; text-align: left; white-space: normal }
.wide .grid th.row { width: 16% }
td.own { color: #777 }
td.changed { outline: .6mm solid #111; outline-offset: -.6mm; font-weight: 700; background: #fff3bf }
.sign { display: grid; grid-template-columns: 50mm 1fr 1fr; gap: 7mm; break-inside: avoid }
.sign .result { font-size: 10pt; align-self: start; margin-top: 3mm }
.sign div { break-inside: avoid }
.sign div:not(.result) p { border-bottom: .3mm solid #111; height: 11mm; margin: 0; padding-top: 6.5mm; color: #555;
  font-size: 8pt }
.signatures { break-inside: avoid }
.signatures > p { margin-top: 4mm; font-size: 10pt }
.box { display: inline-block; width: 3.5mm; height: 3.5mm; border: .3mm solid #111; margin: 0 1.5mm 0 5mm; vertical-align: -.5mm }
.calls { margin: 1mm 0; padding-left: 10mm; font-size: 8.5pt }
.calls li { padding: .2mm 1mm }
.calls.long { font-size: 6pt; line-height: 1.2; columns: 2; column-gap: 5mm; padding-left: 0 }
.calls.long li { margin-left: 9mm }
.refused { background: #e8e8e8; border-left: 1mm solid #555 }
.wrong { border: .4mm solid #b00020; border-left-width: 1.5mm }
.picture { break-before: page }
.picture > svg { display: block; width: 100%; height: auto }
@media screen { .part { display: none }
  .calls.long { font-size: 8.5pt; columns: 1; padding-left: 3mm; max-height: 70vh; overflow: auto; border: .2mm solid #999 } }
@media print { body { margin: 0; padding: 0; max-width: none }
  .whole { break-before: auto; position: absolute; left: 0; top: 0; width: 0; height: 0; overflow: hidden } }
";

#[cfg(test)]
mod tests {
    use super::*;
    use crate::text::input::Input;
    use crate::text::names::Names;

    #[test]
    fn the_size_of_a_picture_is_read_off_it() {
        assert_eq!(
            size("<svg a=\"b\" viewBox=\"0 0 1080 2600\" c>"),
            (1080, 2600)
        );
        assert_eq!(size("<svg>"), (0, 0));
        let input = Input::example();
        let (width, height) = size(&picture::svg(&input, &Names::none(), None, 0));
        assert!(width == 1080 && height > 400);
    }

    #[test]
    fn what_html_takes_for_its_own_is_written_out() {
        assert_eq!(
            escaped("<b a=\"1\" b='2'>&amp;é</b>"),
            "&lt;b a=&quot;1&quot; b=&#39;2&#39;&gt;&amp;amp;é&lt;/b&gt;"
        );
    }
}
