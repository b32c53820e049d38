//! The greedy build as ordinary Rust: a vehicle carries its minute, place and loads along, and each
//! choice is one loop over the stops that keeps the best so far.

use super::fields::Fields;
use super::trip::Trip;
use super::{judge, refuse};
use crate::Refusal;

/// What the plan that was written comes to.
#[derive(Clone, Copy, Debug, PartialEq, Eq)]
pub struct Planned {
    /// The sum over the legs driven.
    pub distance: u64,
    /// The trials made, of which the build makes none.
    pub trials: u64,
    /// Whether no trial is left that would be kept, which the build does not say.
    pub settled: bool,
    /// The stops left out.
    pub left_out: usize,
    /// The words of the plan.
    pub words: usize,
}

/// Judges the day, then writes its greedy plan and zeros behind it, 5n words together. Gives what
/// the plan comes to, or the first of refusals 1 to 5 and 14.
pub fn build(day: &[u32], plan: &mut [u32]) -> Result<Planned, Refusal> {
    judge(day)?;
    build_accepted(day, plan)
}

/// Writes the greedy plan of a day that was accepted; otherwise as [`build`].
pub fn build_accepted(day: &[u32], plan: &mut [u32]) -> Result<Planned, Refusal> {
    let fields = Fields::new(day);
    let needed = 5 * fields.stops;
    let Some(plan) = plan.get_mut(..needed) else { return refuse(14, needed) };
    let mut builder = Builder::new(fields, plan);
    let mut count = 1;
    while builder.vehicle(count) {
        count += 1;
    }
    Ok(builder.finish())
}

/// What a vehicle carries and has done.
#[derive(Clone, Copy, Default)]
struct Cargo {
    load: u32,
    day_load: u32,
    stops: u32,
}

struct Builder<'a> {
    fields: Fields<'a>,
    plan: &'a mut [u32],
    written: usize,
    routed: [bool; 256],
    trip: Trip,
    cargo: Cargo,
    distance: u64,
}

impl<'a> Builder<'a> {
    fn new(fields: Fields<'a>, plan: &'a mut [u32]) -> Self {
        let trip = fields.leaving();
        let (routed, cargo) = ([false; 256], Cargo::default());
        Builder { fields, plan, written: 0, routed, trip, cargo, distance: 0 }
    }

    fn write(&mut self, kind: u32, number: usize) {
        self.plan[self.written] = kind << 28 | number as u32;
        self.written += 1;
    }

    /// Writes the next vehicle. False where it takes no stop: then nothing is written.
    fn vehicle(&mut self, count: usize) -> bool {
        let fresh = self.fields.rest_if_due(self.fields.leaving());
        (self.trip, self.cargo) = (fresh, Cargo::default());
        let Some(first) = self.nearest_stop().or_else(|| self.earliest_stop()) else {
            return false;
        };
        self.write(0xA, count);
        if fresh.rested {
            self.write(0xD, 0);
        }
        self.serve(first);
        loop {
            self.rest();
            if let Some(stop) = self.nearest_stop() {
                self.serve(stop);
            } else if self.cargo.load > 0 {
                self.empty();
            } else if let Some(stop) = self.earliest_stop() {
                self.serve(stop);
            } else {
                break;
            }
        }
        self.distance += u64::from(self.fields.leg(self.trip.place, 0).1);
        self.write(0xE, 0);
        true
    }

    fn rest(&mut self) {
        let rested = self.fields.rest_if_due(self.trip);
        if rested.rested && !self.trip.rested {
            self.write(0xD, 0);
        }
        self.trip = rested;
    }

    fn serve(&mut self, stop: usize) {
        let place = self.fields.tips + stop;
        self.distance += u64::from(self.fields.leg(self.trip.place, place).1);
        self.trip = self.fields.served(self.trip, stop);
        self.cargo = self.fields.loaded(self.cargo, stop);
        self.routed[stop] = true;
        self.write(0xB, stop);
    }

    fn empty(&mut self) {
        let tip = self.fields.nearest_tip(self.trip).expect("the stop has a way home");
        self.distance += u64::from(self.fields.leg(self.trip.place, tip).1);
        self.trip = self.fields.tipped(self.trip, tip);
        self.cargo.load = 0;
        self.write(0xC, tip);
    }

    /// The nearest stop that can be taken now, unless a tip is nearer and the vehicle nearly full.
    /// Of equally near ones the first to close.
    fn nearest_stop(&self) -> Option<usize> {
        let fields = &self.fields;
        let (mut best, mut least) = (None, (u32::MAX, u32::MAX));
        for stop in 1..=fields.stops {
            if self.routed[stop] {
                continue;
            }
            let minutes = fields.leg(self.trip.place, fields.tips + stop).0;
            let window = fields.stop_window(stop);
            if (minutes, window.closing) >= least {
                continue;
            }
            let arrival = self.trip.minute + minutes;
            if window.opening <= arrival && arrival <= window.closing && self.suits(stop) {
                (best, least) = (Some(stop), (minutes, window.closing));
            }
        }
        if best.is_some() && fields.near_capacity(self.cargo) {
            let tip = fields.nearest_tip(self.trip).expect("the last stop has a way home");
            if least.0 > fields.leg(self.trip.place, tip).0 {
                return None;
            }
        }
        best
    }

    /// The stop that opens first among those reached before they open. Of those that open together
    /// the first to close.
    fn earliest_stop(&self) -> Option<usize> {
        let fields = &self.fields;
        let (mut best, mut least) = (None, (u32::MAX, u32::MAX));
        for stop in 1..=fields.stops {
            let window = fields.stop_window(stop);
            if self.routed[stop] || (window.opening, window.closing) >= least {
                continue;
            }
            let minutes = fields.leg(self.trip.place, fields.tips + stop).0;
            if self.trip.minute + minutes < window.opening && self.suits(stop) {
                (best, least) = (Some(stop), (window.opening, window.closing));
            }
        }
        best
    }

    fn suits(&self, stop: usize) -> bool {
        let cargo = self.fields.loaded(self.cargo, stop);
        cargo.load <= self.fields.load
            && cargo.day_load <= self.fields.day_load
            && cargo.stops <= self.fields.day_stops
            && self.fields.has_way_home(self.fields.served(self.trip, stop), cargo.load)
    }

    fn finish(mut self) -> Planned {
        let mut left_out = 0;
        for stop in 1..=self.fields.stops {
            if !self.routed[stop] {
                self.write(0xF, stop);
                left_out += 1;
            }
        }
        self.plan[self.written..].fill(0);
        let (distance, words) = (self.distance, self.written);
        Planned { distance, trials: 0, settled: false, left_out, words }
    }
}

impl Fields<'_> {
    fn loaded(&self, cargo: Cargo, stop: usize) -> Cargo {
        let quantity = self.quantity(stop);
        Cargo {
            load: cargo.load + quantity,
            day_load: cargo.day_load + quantity,
            stops: cargo.stops + 1,
        }
    }

    fn near_capacity(&self, cargo: Cargo) -> bool {
        cargo.load > 0
            && (5 * cargo.load > 4 * self.load
                || 5 * cargo.day_load > 4 * self.day_load
                || 5 * cargo.stops > 4 * self.day_stops)
    }

    fn has_way_home(&self, trip: Trip, load: u32) -> bool {
        let mut trip = self.rest_if_due(trip);
        if load > 0 {
            let Some(tip) = self.nearest_tip(trip) else { return false };
            trip = self.rest_if_due(self.tipped(trip, tip));
        }
        let back = trip.minute + self.leg(trip.place, 0).0;
        back <= self.depot.closing && (trip.rested || back <= self.rest.closing)
    }
}
