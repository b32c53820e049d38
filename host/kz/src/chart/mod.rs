//! A plan as a picture: one lane a vehicle over the hours, in SVG 1.1. It needs nothing beside
//! itself, and what is told by a colour is told by a form or a pattern too, for black and white.

mod canvas;
mod frame;
mod labels;
mod lane;
mod layout;
mod legend;

use canvas::{escaped, Canvas};
use labels::Label;
use lane::Lane;
use layout::{Lanes, Scale, MARGIN, WIDTH};

use crate::day::Day;
use crate::sheet::Sheet;
use crate::text::Names;

/// How things are drawn: patterns, then colours and letters.
const STYLE: &str = include_str!("style.svg");

/// The picture of a lawful plan's sheets.
pub fn svg(day: &Day, names: &Names, sheet: &Sheet) -> String {
    let scale = Scale::of(day, sheet);
    let labels = |round| labels::labels(names, round, scale);
    let labels: Vec<Vec<Label>> = sheet.rounds.iter().map(labels).collect();
    let rise = labels::rise(&labels);
    let lanes = Lanes::of(sheet, &labels, rise);
    let bottom = lanes.top(sheet.rounds.len());
    let mut canvas = Canvas::default();
    frame::title(&mut canvas, day, names, sheet);
    frame::hours(&mut canvas, day, scale, bottom);
    for (index, (round, labels)) in sheet.rounds.iter().zip(&labels).enumerate() {
        Lane { day, names, scale, lanes, round, labels, rise, index }.draw(&mut canvas);
    }
    let end = legend::draw(&mut canvas, day, names, sheet, bottom + 38.0);
    let height = end + MARGIN / 3.0;
    let (wide, high) = (WIDTH / 4.0, height / 4.0);
    format!(
        "<?xml version=\"1.0\" encoding=\"UTF-8\"?>\n\
         <svg xmlns=\"http://www.w3.org/2000/svg\" version=\"1.1\" width=\"{wide}mm\" \
         height=\"{high:.1}mm\" viewBox=\"0 0 {WIDTH} {height:.1}\">\n\
         <title>{}</title>\n{STYLE}<rect class=\"paper\" width=\"{WIDTH}\" height=\"{height:.1}\"/>\n{}</svg>\n",
        escaped(frame::name(names)),
        canvas.into_elements()
    )
}
