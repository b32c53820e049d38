//! The lane of one vehicle: what it does as a bar over the hours, names above it, and under it the
//! window of each stop with the minutes in which it is served.

use super::canvas::{Anchor, Area, Canvas};
use super::labels::{place, Label, Rise, LIFT};
use super::layout::{number_fits, Lanes, Scale, BAR, MARGIN, RIGHT, WIDTH};
use crate::clock::{counted, grouped, time, window};
use crate::day::Day;
use crate::sheet::{Act, Entry, Round};
use crate::text::Names;

/// How long and how wide to either side a wedge at the depot is.
const WEDGE: f64 = 7.0;

/// How far a tip stands out of the bar.
const RAISED: f64 = 3.0;

/// What a lane is drawn with.
pub(super) struct Lane<'a> {
    pub day: &'a Day,
    pub names: &'a Names,
    pub scale: Scale,
    pub lanes: Lanes,
    pub round: &'a Round,
    pub labels: &'a [Label],
    pub rise: Rise,
    /// Which lane it is, from 0.
    pub index: usize,
}

impl Lane<'_> {
    /// Draws the lane.
    pub fn draw(&self, canvas: &mut Canvas) {
        let name = format!("vehicle {}", self.round.number);
        canvas.group("lane", &name, |canvas| {
            self.ends(canvas);
            for pair in self.round.entries.windows(2) {
                self.way(canvas, &pair[0], &pair[1]);
            }
            for entry in &self.round.entries {
                self.act(canvas, entry);
            }
            self.labels(canvas);
            self.windows(canvas);
        });
    }

    fn middle(&self) -> f64 {
        self.lanes.bar(self.index) + BAR / 2.0
    }

    /// The vehicle's number before the bar, and behind it what its day comes to.
    fn ends(&self, canvas: &mut Canvas) {
        let (round, y) = (self.round, self.middle());
        let vehicle = format!("Vehicle {}", round.number);
        let hours = format!("{} to {}", time(round.leaves()), time(round.back()));
        canvas.text("vehicle", (MARGIN, y + 2.0), Anchor::Start, &vehicle);
        canvas.text("small", (MARGIN, y + 16.0), Anchor::Start, &hours);
        let behind = RIGHT + 18.0;
        let kg = format!("{} kg", grouped(u64::from(round.collected)));
        let distance = format!("distance {}", grouped(round.distance()));
        canvas.text("sum", (behind, y - 8.0), Anchor::Start, &counted(round.stops, "stop"));
        canvas.text("sum", (behind, y + 7.0), Anchor::Start, &kg);
        canvas.text("sum", (behind, y + 22.0), Anchor::Start, &distance);
        let top = self.lanes.top(self.index);
        canvas.line("rule", (MARGIN, top), (WIDTH - MARGIN, top));
    }

    /// Driving as a line, then waiting as a row of dots.
    fn way(&self, canvas: &mut Canvas, before: &Entry, entry: &Entry) {
        let (scale, y) = (self.scale, self.middle());
        if entry.arrival > before.end {
            canvas.line("drive", (scale.x(before.end), y), (scale.x(entry.arrival), y));
        }
        if entry.waiting() > 0 {
            canvas.line("wait", (scale.x(entry.arrival) + 3.0, y), (scale.x(entry.start), y));
        }
    }

    /// What is done at a place: a block, or a wedge at the depot.
    fn act(&self, canvas: &mut Canvas, entry: &Entry) {
        let (x, y) = (self.scale.x(entry.start), self.lanes.bar(self.index));
        let width = self.scale.x(entry.end) - x;
        let area = Area { x, y, width, height: BAR };
        match entry.act {
            Act::Leave => wedge(canvas, (x, self.middle()), x - WEDGE),
            Act::Back => wedge(canvas, (x, self.middle()), x + WEDGE),
            Act::Stop(stop) => canvas.group("visit", &self.said(entry), |canvas| {
                canvas.area("stop", area);
                let number = stop.to_string();
                if number_fits(&number, entry, self.scale) {
                    let middle = (x + width / 2.0, y + BAR / 2.0 + 3.3);
                    canvas.text("number", middle, Anchor::Middle, &number);
                }
            }),
            Act::Tip(_) => canvas.group("visit", &self.said(entry), |canvas| {
                canvas.area("tip", Area { y: y - RAISED, height: BAR + 2.0 * RAISED, ..area });
            }),
            Act::Rest => canvas.group("visit", &self.said(entry), |canvas| {
                canvas.area("rest", area);
            }),
        }
    }

    /// What a viewer shows of a block under the pointer.
    fn said(&self, entry: &Entry) -> String {
        let hours = format!("{} to {}", time(entry.start), time(entry.end));
        match entry.act {
            Act::Stop(stop) => {
                let asked = self.day.stops[stop - 1];
                let (name, kg) = (self.names.stop(stop), grouped(asked.quantity.into()));
                let open = window(asked.visit.window);
                format!("stop {stop}, {name}: {hours}, {kg} kg, open {open}")
            }
            Act::Tip(tip) => format!("tip {tip}, {}: {hours}", self.names.tip(tip)),
            Act::Rest => format!("rest: {hours}"),
            Act::Leave | Act::Back => hours,
        }
    }

    fn labels(&self, canvas: &mut Canvas) {
        let bar = self.lanes.bar(self.index);
        for (label, x) in self.labels.iter().zip(place(self.labels, self.rise)) {
            let (class, top) =
                if label.is_tip { ("tip-label", bar - RAISED) } else { ("label", bar) };
            canvas.line("leader", (label.wanted, top), (x, bar - LIFT + 1.0));
            let foot = (x + self.rise.size * 0.3, bar - LIFT);
            canvas.rising_text(class, foot, self.rise, &label.text);
        }
    }

    /// A thin line for each stop from its opening to its closing, and on it when it is served.
    fn windows(&self, canvas: &mut Canvas) {
        let scale = self.scale;
        let mut y = self.lanes.windows(self.index);
        for entry in &self.round.entries {
            let Act::Stop(stop) = entry.act else { continue };
            let window = self.day.stops[stop - 1].visit.window;
            let (opening, closing) = (scale.x(window.opening), scale.x(window.closing));
            canvas.line("window", (opening, y), (closing, y));
            let (x, height) = (scale.x(entry.start), 2.0);
            let width = (scale.x(entry.end) - x).max(1.0);
            canvas.area("served", Area { x, y: y - height / 2.0, width, height });
            y += self.lanes.window;
        }
    }
}

/// A wedge at the depot: it points to the bar where the vehicle leaves, and back at it where it
/// returns.
pub(super) fn wedge(canvas: &mut Canvas, head: (f64, f64), tail: f64) {
    let (x, y) = head;
    canvas.polygon("depot", &[(tail, y - WEDGE), (x, y), (tail, y + WEDGE)]);
}
