//! Where things stand on the sheet. A unit is a quarter of a millimetre, so that a sheet of A4
//! across has 1,188 by 840 of them.

use super::labels::{Label, Rise};
use crate::day::Day;
use crate::sheet::{Entry, Round, Sheet};
use crate::text::Names;

/// The sheet's width. Its height is what the vehicles need.
pub(super) const WIDTH: f64 = 1_188.0;
/// What is left free around everything.
pub(super) const MARGIN: f64 = 24.0;
/// The hours lie between these.
pub(super) const LEFT: f64 = 126.0;
pub(super) const RIGHT: f64 = 1_042.0;
/// Where the first lane begins.
pub(super) const TOP: f64 = 98.0;
/// How high the bar of what a vehicle does is.
pub(super) const BAR: f64 = 18.0;

/// What the windows of a vehicle's stops take about and at the least, and how far apart they are.
const WINDOWS: f64 = 40.0;
const LEAST_WINDOWS: f64 = 18.0;
const NARROW: f64 = 2.0;
const WIDE: f64 = 2.6;
/// How wide a digit in the bar is.
const DIGIT: f64 = 6.2;
/// What lies between the parts of a lane.
const GAP: f64 = 4.0;

/// Minutes along the sheet.
#[derive(Clone, Copy, Debug)]
pub(super) struct Scale {
    pub first: u32,
    pub last: u32,
}

impl Scale {
    /// Whole hours from the depot's opening until the last vehicle is back.
    pub fn of(day: &Day, sheet: &Sheet) -> Scale {
        let first = day.depot.opening / 60 * 60;
        let back = sheet.rounds.iter().map(Round::back).max().unwrap_or(day.depot.closing);
        Scale { first, last: back.max(first + 1).div_ceil(60) * 60 }
    }

    /// Where a minute stands; minutes outside stand at the end.
    pub fn x(&self, minute: u32) -> f64 {
        let minute = minute.clamp(self.first, self.last);
        let share = f64::from(minute - self.first) / f64::from(self.last - self.first);
        LEFT + share * (RIGHT - LEFT)
    }

    /// How far apart the lines of the grid are, in minutes.
    pub fn step(&self) -> u32 {
        match self.last - self.first {
            0..=120 => 10,
            121..=240 => 15,
            241..=540 => 30,
            _ => 60,
        }
    }
}

/// The heights that every lane has.
#[derive(Clone, Copy, Debug)]
pub(super) struct Lanes {
    /// What the names over a bar need.
    pub labels: f64,
    /// How far apart the windows under a bar are.
    pub window: f64,
    /// The whole lane.
    pub height: f64,
}

impl Lanes {
    pub fn of(sheet: &Sheet, labels: &[Vec<Label>], rise: Rise) -> Lanes {
        let letters = labels.iter().flatten().map(|label| label.text.chars().count());
        let labels = rise.height(letters.max().unwrap_or(0));
        let most_stops = sheet.rounds.iter().map(|round| round.stops).max().unwrap_or(0) as f64;
        let window = (WINDOWS / most_stops.max(1.0)).clamp(NARROW, WIDE);
        let windows = (window * most_stops).max(LEAST_WINDOWS);
        Lanes { labels, window, height: labels + BAR + GAP + windows + GAP }
    }

    /// Where a lane's bar begins.
    pub fn bar(&self, lane: usize) -> f64 {
        self.top(lane) + self.labels
    }

    /// Where the windows under it begin.
    pub fn windows(&self, lane: usize) -> f64 {
        self.bar(lane) + BAR + GAP
    }

    /// Where a lane begins; the one behind the last is where the lanes end.
    pub fn top(&self, lane: usize) -> f64 {
        TOP + self.height * lane as f64
    }
}

/// Whether a stop's number fits into the bar.
pub(super) fn number_fits(number: &str, entry: &Entry, scale: Scale) -> bool {
    let width = scale.x(entry.end) - scale.x(entry.start);
    width > DIGIT * number.len() as f64 + 0.6
}

/// Whether a stop is called otherwise than by its number.
pub(super) fn has_own_name(names: &Names, stop: usize) -> bool {
    names.stop(stop) != format!("stop {stop}")
}
