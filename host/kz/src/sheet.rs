//! The sheets of a lawful plan: what each vehicle does, at its earliest minutes. A vehicle leaves
//! when the depot opens, drives on as soon as it is free, and waits where it comes before an
//! opening. Where any timetable exists these minutes are one, and no other has an earlier start.

use crate::day::{Day, Visit, Window, DEPOT};

/// What a vehicle does by one word. Stops and tips are counted from 1.
#[derive(Clone, Copy, Debug, PartialEq, Eq)]
pub enum Act {
    /// A: it leaves the depot.
    Leave,
    /// B: it serves a stop.
    Stop(usize),
    /// C: it empties its load at a tip.
    Tip(usize),
    /// D: it rests where it is.
    Rest,
    /// E: it is back at the depot.
    Back,
}

/// One word of a vehicle. From the end of the entry before it to `arrival` the vehicle drives,
/// then it waits until `start`, and `end` is when it drives on.
#[derive(Clone, Copy, Debug, PartialEq, Eq)]
pub struct Entry {
    /// What is done.
    pub act: Act,
    /// Where the vehicle then is: 0 the depot, then the tips, then the stops.
    pub place: usize,
    /// The minute at which it comes there.
    pub arrival: u32,
    /// The minute at which it starts what it does there.
    pub start: u32,
    /// The minute at which that ends.
    pub end: u32,
    /// The kg on board then.
    pub load: u32,
    /// The distance driven by then.
    pub distance: u64,
}

/// What one vehicle does.
#[derive(Clone, Debug, PartialEq, Eq)]
pub struct Round {
    /// The vehicle, counted from 1.
    pub number: usize,
    /// Its words from A to E.
    pub entries: Vec<Entry>,
    /// The stops that it serves.
    pub stops: usize,
    /// The kg that it collects in the day.
    pub collected: u32,
}

/// The sheets of a lawful plan.
#[derive(Clone, Debug, PartialEq, Eq)]
pub struct Sheet {
    /// The vehicles in order.
    pub rounds: Vec<Round>,
    /// The stops that no vehicle serves, rising.
    pub left_out: Vec<usize>,
}

impl Entry {
    /// The minutes from the coming to the start.
    pub fn waiting(&self) -> u32 {
        self.start - self.arrival
    }
}

impl Round {
    /// The distance that the vehicle drives.
    pub fn distance(&self) -> u64 {
        self.entries.last().map_or(0, |entry| entry.distance)
    }

    /// The minute at which it leaves.
    pub fn leaves(&self) -> u32 {
        self.entries.first().map_or(0, |entry| entry.start)
    }

    /// The minute at which it is back.
    pub fn back(&self) -> u32 {
        self.entries.last().map_or(0, |entry| entry.end)
    }

    /// How many times it empties a load.
    pub fn tippings(&self) -> usize {
        self.entries.iter().filter(|entry| matches!(entry.act, Act::Tip(_))).count()
    }
}

impl Sheet {
    /// The sheets of a plan that `kazhuvendi::check` calls lawful on this day. Of another plan
    /// they mean nothing.
    ///
    /// # Panics
    ///
    /// Where the plan is not lawful, this may panic.
    pub fn of(day: &Day, plan: &[u32]) -> Sheet {
        let mut sheet = Sheet { rounds: Vec::new(), left_out: Vec::new() };
        for &word in plan {
            let number = (word & 0xFF) as usize;
            match word >> 28 {
                0xA => sheet.rounds.push(Round::fresh(day, number)),
                0xB => sheet.act(day, Act::Stop(number)),
                0xC => sheet.act(day, Act::Tip(number)),
                0xD => sheet.act(day, Act::Rest),
                0xE => sheet.act(day, Act::Back),
                _ => sheet.left_out.push(number),
            }
        }
        sheet
    }

    /// The distance that all vehicles drive.
    pub fn distance(&self) -> u64 {
        self.rounds.iter().map(Round::distance).sum()
    }

    /// The stops that all vehicles serve.
    pub fn stops(&self) -> usize {
        self.rounds.iter().map(|round| round.stops).sum()
    }

    /// The kg that all vehicles collect.
    pub fn collected(&self) -> u64 {
        self.rounds.iter().map(|round| u64::from(round.collected)).sum()
    }

    fn act(&mut self, day: &Day, act: Act) {
        self.rounds.last_mut().expect("a lawful plan begins with a vehicle").act(day, act);
    }
}

impl Round {
    /// A vehicle that leaves empty as the depot opens.
    fn fresh(day: &Day, number: usize) -> Round {
        let opening = day.depot.opening;
        let leave = Entry {
            act: Act::Leave,
            place: DEPOT,
            arrival: opening,
            start: opening,
            end: opening,
            load: 0,
            distance: 0,
        };
        Round { number, entries: vec![leave], stops: 0, collected: 0 }
    }

    /// Drives to where this is done, waits for the opening and does it.
    fn act(&mut self, day: &Day, act: Act) {
        let before = *self.entries.last().expect("a round begins with leaving");
        let (place, window, minutes) = duty(day, act, before.place);
        let leg = day.leg(before.place, place);
        let arrival = before.end + leg.minutes;
        let start = arrival.max(window.opening);
        let load = match act {
            Act::Stop(stop) => before.load + self.collect(day, stop),
            Act::Tip(_) => 0,
            _ => before.load,
        };
        let distance = before.distance + u64::from(leg.distance);
        self.entries.push(Entry {
            act,
            place,
            arrival,
            start,
            end: start + minutes,
            load,
            distance,
        });
    }

    fn collect(&mut self, day: &Day, stop: usize) -> u32 {
        let quantity = day.stops[stop - 1].quantity;
        self.stops += 1;
        self.collected += quantity;
        quantity
    }
}

/// Where something is done, from when on, and how long it lasts. A rest is taken `here`.
fn duty(day: &Day, act: Act, here: usize) -> (usize, Window, u32) {
    let visit = |place: usize, visit: Visit| (place, visit.window, visit.minutes);
    match act {
        Act::Leave | Act::Back => (DEPOT, Window { opening: 0, closing: day.depot.closing }, 0),
        Act::Stop(stop) => visit(day.place_of_stop(stop), day.stops[stop - 1].visit),
        Act::Tip(tip) => visit(tip, day.tips[tip - 1]),
        Act::Rest => (here, day.rest, day.rest_minutes),
    }
}
