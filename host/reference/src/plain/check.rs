//! The check of a plan as ordinary Rust: one walk over the words at the earliest minutes, fields
//! read from the day file where they are needed, marks in an array.

use super::fields::{number, Fields, Window};
use super::{judge, refuse};
use crate::check::{Totals, MOST_WORDS};
use crate::Refusal;

/// Judges the day, then checks the plan: the totals, or the first of refusals 1 to 12.
pub fn check(day: &[u32], plan: &[u32]) -> Result<Totals, Refusal> {
    judge(day)?;
    check_accepted(day, plan)
}

/// Checks a plan of a day that was accepted: the totals, or the first of refusals 6 to 12. The kinds
/// of word are told apart in the loop itself; in a function of its own that takes longer.
pub fn check_accepted(day: &[u32], plan: &[u32]) -> Result<Totals, Refusal> {
    if plan.len() > MOST_WORDS {
        return refuse(6, MOST_WORDS);
    }
    let mut walk = Walk::new(Fields::new(day));
    for (index, &word) in plan.iter().enumerate() {
        if word & 0x0FFF_FF00 != 0 {
            return refuse(7, index);
        }
        let number = (word & 0xFF) as usize;
        let done = match word >> 28 {
            0xA => walk.leave(number),
            0xB => walk.serve(number),
            0xC => walk.empty(number),
            0xD => walk.rest(number),
            0xE => walk.come_back(number),
            0xF => walk.leave_out(number),
            _ => Err(7),
        };
        if let Err(number) = done {
            return refuse(number, index);
        }
    }
    if walk.under_way {
        return refuse(7, plan.len());
    }
    if walk.stops_met < walk.fields.stops {
        return refuse(8, plan.len());
    }
    Ok(walk.totals)
}

/// What the vehicle under way has done so far.
#[derive(Default)]
struct Vehicle {
    minute: u32,
    place: usize,
    load: u32,
    day_load: u32,
    stops: u32,
    rested: bool,
}

struct Walk<'a> {
    fields: Fields<'a>,
    vehicle: Vehicle,
    under_way: bool,
    met: [bool; 256],
    stops_met: usize,
    last_left_out: usize,
    totals: Totals,
}

impl<'a> Walk<'a> {
    fn new(fields: Fields<'a>) -> Self {
        Walk {
            fields,
            vehicle: Vehicle::default(),
            under_way: false,
            met: [false; 256],
            stops_met: 0,
            last_left_out: 0,
            totals: Totals { distance: 0, vehicles: 0, served: 0 },
        }
    }

    fn leave(&mut self, number: usize) -> Result<(), u64> {
        if self.under_way || self.last_left_out > 0 || number as u64 != self.totals.vehicles + 1 {
            return Err(7);
        }
        self.under_way = true;
        self.totals.vehicles += 1;
        self.vehicle = Vehicle { minute: self.fields.depot.opening, ..Vehicle::default() };
        Ok(())
    }

    fn serve(&mut self, stop: usize) -> Result<(), u64> {
        if !self.under_way || stop == 0 || stop > self.fields.stops {
            return Err(7);
        }
        self.meet(stop)?;
        let words = &self.fields.stop_words[3 * (stop - 1)..][..3];
        let (window, service, quantity) =
            (Window::of(words[0]), number(words[1]), number(words[2]));
        let vehicle = &mut self.vehicle;
        vehicle.load += quantity;
        vehicle.day_load += quantity;
        vehicle.stops += 1;
        if vehicle.load > self.fields.load
            || vehicle.day_load > self.fields.day_load
            || vehicle.stops > self.fields.day_stops
        {
            return Err(9);
        }
        self.totals.served += 1;
        self.visit(self.fields.tips + stop, window, service)
    }

    fn empty(&mut self, tip: usize) -> Result<(), u64> {
        if !self.under_way || tip == 0 || tip > self.fields.tips {
            return Err(7);
        }
        let words = &self.fields.tip_words[2 * (tip - 1)..][..2];
        let (window, service) = (Window::of(words[0]), number(words[1]));
        self.vehicle.load = 0;
        self.visit(tip, window, service)
    }

    fn rest(&mut self, number: usize) -> Result<(), u64> {
        if !self.under_way || number != 0 {
            return Err(7);
        }
        let start = self.vehicle.minute.max(self.fields.rest.opening);
        if self.vehicle.rested || start > self.fields.rest.closing {
            return Err(12);
        }
        self.vehicle.rested = true;
        self.vehicle.minute = start + self.fields.rest_minutes;
        Ok(())
    }

    fn come_back(&mut self, number: usize) -> Result<(), u64> {
        if !self.under_way || number != 0 || self.vehicle.stops == 0 {
            return Err(7);
        }
        if self.vehicle.load > 0 {
            return Err(10);
        }
        let arrival = self.drive(0);
        if arrival > self.fields.depot.closing {
            return Err(11);
        }
        if !self.vehicle.rested && arrival > self.fields.rest.closing {
            return Err(12);
        }
        self.under_way = false;
        Ok(())
    }

    fn leave_out(&mut self, stop: usize) -> Result<(), u64> {
        if self.under_way || stop <= self.last_left_out || stop > self.fields.stops {
            return Err(7);
        }
        self.last_left_out = stop;
        self.meet(stop)
    }

    fn meet(&mut self, stop: usize) -> Result<(), u64> {
        if self.met[stop] {
            return Err(8);
        }
        self.met[stop] = true;
        self.stops_met += 1;
        Ok(())
    }

    fn visit(&mut self, place: usize, window: Window, service: u32) -> Result<(), u64> {
        let start = self.drive(place).max(window.opening);
        if start > window.closing {
            return Err(11);
        }
        self.vehicle.minute = start + service;
        Ok(())
    }

    /// The minute of arrival at a place.
    fn drive(&mut self, place: usize) -> u32 {
        let (minutes, distance) = self.fields.leg(self.vehicle.place, place);
        self.vehicle.place = place;
        self.totals.distance += u64::from(distance);
        self.vehicle.minute + minutes
    }
}
