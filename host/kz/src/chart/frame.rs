//! What stands around the lanes: the title, the hours and the rest window.

use super::canvas::{Anchor, Area, Canvas};
use super::layout::{Scale, LEFT, MARGIN, RIGHT, TOP};
use crate::clock::{counted, grouped, shortened, time, window};
use crate::day::Day;
use crate::sheet::Sheet;
use crate::text::Names;

/// The most letters of the title.
const LONGEST_TITLE: usize = 64;

/// What the picture is called.
pub(super) fn name(names: &Names) -> &str {
    match names.day() {
        "" => "Rounds of the day",
        day => day,
    }
}

/// The day's name and what its plan comes to.
pub(super) fn title(canvas: &mut Canvas, day: &Day, names: &Names, sheet: &Sheet) {
    canvas.text("title", (MARGIN, 42.0), Anchor::Start, &shortened(name(names), LONGEST_TITLE));
    let sums = format!(
        "{}, {} of {}, {} kg, distance {}. Depot open {}, rest of {} minutes from {} to {}.",
        counted(sheet.rounds.len(), "vehicle"),
        sheet.stops(),
        counted(day.stops.len(), "stop"),
        grouped(sheet.collected()),
        grouped(sheet.distance()),
        window(day.depot),
        day.rest_minutes,
        time(day.rest.opening),
        time(day.rest.closing)
    );
    canvas.text("sums", (MARGIN, 62.0), Anchor::Start, &sums);
}

/// The hours as lines behind the lanes, with the time above and below, and the rest window as a
/// band.
pub(super) fn hours(canvas: &mut Canvas, day: &Day, scale: Scale, bottom: f64) {
    let (from, to) = (scale.x(day.rest.opening), scale.x(day.rest.closing));
    if to > from {
        let height = bottom - TOP;
        canvas.area("rest-window", Area { x: from, y: TOP, width: to - from, height });
    }
    for minute in (scale.first..=scale.last).step_by(scale.step() as usize) {
        let x = scale.x(minute);
        let on_the_hour = minute % 60 == 0;
        let class = if on_the_hour { "hour" } else { "part-of-hour" };
        canvas.line(class, (x, TOP), (x, bottom));
        if on_the_hour || scale.step() < 30 {
            canvas.text("time", (x, TOP - 8.0), Anchor::Middle, &time(minute));
            canvas.text("time", (x, bottom + 16.0), Anchor::Middle, &time(minute));
        }
    }
    canvas.line("edge", (LEFT, TOP), (RIGHT, TOP));
    canvas.line("edge", (LEFT, bottom), (RIGHT, bottom));
}
