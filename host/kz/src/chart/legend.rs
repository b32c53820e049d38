//! What stands below the lanes: what the marks mean, the tips, and the stops left out.

use super::canvas::{Anchor, Area, Canvas};
use super::lane::wedge;
use super::layout::{has_own_name, BAR, MARGIN, WIDTH};
use crate::clock::{grouped, shortened, window};
use crate::day::Day;
use crate::sheet::Sheet;
use crate::text::Names;

/// How far apart lines of text are.
const LINE: f64 = 17.0;
/// How wide a letter of them is at the most, on average.
const LETTER: f64 = 6.1;
/// The most letters of a name in them.
const LONGEST_NAME: usize = 40;
/// How wide a mark is.
const MARK: f64 = 32.0;

/// Draws everything below `y` and gives where it ends.
pub(super) fn draw(canvas: &mut Canvas, day: &Day, names: &Names, sheet: &Sheet, y: f64) -> f64 {
    canvas.group("legend", "what the marks mean", |canvas| marks(canvas, y));
    let tips = (1..).zip(&day.tips).map(|(number, tip)| {
        let name = shortened(names.tip(number), LONGEST_NAME);
        format!("T{number} {name} ({}, {} min)", window(tip.window), tip.minutes)
    });
    let y = listed(canvas, "Tips: ", tips, y + 2.0 * LINE - 4.0);
    let left_out = sheet.left_out.iter().map(|stop| {
        let asked = day.stops[stop - 1];
        let name = if has_own_name(names, *stop) { names.stop(*stop) } else { "" };
        let what = format!("{stop} {}", shortened(name, LONGEST_NAME));
        let (kg, open) = (grouped(asked.quantity.into()), window(asked.visit.window));
        format!("{} ({kg} kg, {open})", what.trim_end())
    });
    let nothing = sheet.left_out.is_empty().then(|| "none".to_string());
    listed(canvas, "Stops left out: ", left_out.chain(nothing), y)
}

/// A mark and its meaning, side by side in one line.
fn marks(canvas: &mut Canvas, y: f64) {
    let meanings = [
        ("depot", "leaving, back"),
        ("drive", "driving"),
        ("wait", "waiting"),
        ("stop", "service at a stop"),
        ("tip", "emptying at a tip"),
        ("rest", "rest"),
        ("rest-window", "when a rest may start"),
        ("served", "window of a stop, and its service"),
    ];
    let mut x = MARGIN;
    for (class, meaning) in meanings {
        mark(canvas, class, x, y);
        canvas.text("meaning", (x + MARK + 6.0, y + 4.0), Anchor::Start, meaning);
        x += MARK + 6.0 + meaning.chars().count() as f64 * LETTER + 12.0;
    }
}

fn mark(canvas: &mut Canvas, class: &str, x: f64, y: f64) {
    let area = Area { x, y: y - BAR / 2.0, width: MARK, height: BAR };
    match class {
        "depot" => {
            wedge(canvas, (x + 12.0, y), x + 5.0);
            wedge(canvas, (x + 22.0, y), x + 29.0);
        }
        "drive" | "wait" => canvas.line(class, (x + 2.0, y), (x + MARK, y)),
        "served" => {
            canvas.line("window", (x, y), (x + MARK, y));
            canvas.area(class, Area { x: x + 12.0, y: y - 1.1, width: 10.0, height: 2.2 });
        }
        _ => canvas.area(class, area),
    }
}

/// Items behind a heading, in as many lines as they need; gives where the next line stands.
fn listed(canvas: &mut Canvas, heading: &str, items: impl Iterator<Item = String>, y: f64) -> f64 {
    let most = ((WIDTH - 2.0 * MARGIN) / LETTER) as usize;
    let mut lines = vec![heading.to_string()];
    let mut items = items.peekable();
    while let Some(mut item) = items.next() {
        item.push_str(if items.peek().is_some() { "; " } else { "" });
        let line = lines.last_mut().expect("there is a line");
        if line.chars().count() + item.chars().count() > most {
            lines.push(item);
        } else {
            line.push_str(&item);
        }
    }
    for (index, line) in lines.iter().enumerate() {
        let at = (MARGIN, y + LINE * index as f64);
        canvas.text("listed", at, Anchor::Start, line.trim_end());
    }
    y + LINE * lines.len() as f64
}
