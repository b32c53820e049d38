//! Days to make plans for. Vehicles get round on a usual day; a twist or two makes it unusual.

use crate::day::{Day, Leg, Limits, Stop, Tip, Window};
use crate::random::Random;
use crate::samples::{legs, random_day};

/// A day on which a vehicle has time for some dozens of stops and tips after each few of them.
pub fn usual_day(random: &mut Random, stops: usize, tips: usize) -> Day {
    Day {
        limits: Limits { load: 1_000, day_load: 12_000, day_stops: 60 },
        depot: Window { opening: 360, closing: 1_320 },
        rest: Window { opening: 600, closing: 840 },
        rest_minutes: 30,
        tips: (0..tips).map(|_| usual_tip(random)).collect(),
        stops: (0..stops).map(|_| usual_stop(random)).collect(),
        legs: legs(1 + tips + stops, || Leg {
            minutes: random.within(1..=12),
            distance: random.within(100..=9_999),
        }),
    }
}

fn usual_tip(random: &mut Random) -> Tip {
    let window = Window { opening: random.within(0..=400), closing: random.within(1_200..=1_440) };
    Tip { window, service: random.within(5..=15) }
}

fn usual_stop(random: &mut Random) -> Stop {
    let window = Window { opening: random.within(0..=600), closing: random.within(900..=1_440) };
    Stop { window, service: random.within(1..=8), quantity: random.within(20..=400) }
}

/// A day of so many stops and tips that is accepted: a usual one, one with up to three twists, or
/// one whose values are any.
pub fn workday(random: &mut Random, stops: usize, tips: usize) -> Day {
    if random.once_in(20) {
        return random_day(random, stops, tips);
    }
    let mut day = usual_day(random, stops, tips);
    for _ in 0..random.one_of(&[0, 1, 1, 1, 2, 3]) {
        match random.below(3) {
            0 => twist_limits(random, &mut day),
            1 => twist_windows(random, &mut day),
            _ => twist_minutes(random, &mut day),
        }
    }
    day
}

/// Loads and counts that are soon reached, stops with nothing to collect, stops above Q.
fn twist_limits(random: &mut Random, day: &mut Day) {
    let load = day.limits.load;
    match random.below(5) {
        0 => day.limits.load = random.within(1..=500),
        1 => day.limits.day_load = random.within(load.div_ceil(2)..=3 * load),
        2 => day.limits.day_stops = random.within(1..=6),
        3 => some(random, &mut day.stops, |_, stop| stop.quantity = 0),
        _ => some(random, &mut day.stops, |random, stop| {
            stop.quantity = random.one_of(&[load, load + 1, 2 * load, 100_000]);
        }),
    }
}

/// Windows that are narrow or always open, and a rest that is early, late or at one minute.
fn twist_windows(random: &mut Random, day: &mut Day) {
    let always = Window { opening: 0, closing: 1_440 };
    match random.below(8) {
        0 => some(random, &mut day.stops, |random, stop| stop.window = narrow(random)),
        1 => some(random, &mut day.tips, |random, tip| tip.window = narrow(random)),
        2 => {
            day.stops.iter_mut().for_each(|stop| stop.window = always);
            day.tips.iter_mut().for_each(|tip| tip.window = always);
        }
        3 => day.depot.closing = day.depot.opening + random.within(0..=300),
        4 => day.depot = always,
        5 => day.rest = Window { opening: 0, closing: random.within(300..=420) },
        6 => {
            let opening = random.within(1_200..=1_400);
            day.rest = Window { opening, closing: 1_440 };
        }
        _ => {
            let minute = random.within(360..=1_320);
            day.rest = Window { opening: minute, closing: minute };
        }
    }
}

fn narrow(random: &mut Random) -> Window {
    let opening = random.within(300..=1_200);
    Window { opening, closing: opening + random.within(0..=60) }
}

/// Ways of no minutes and ways of many, the same for service and rest.
fn twist_minutes(random: &mut Random, day: &mut Day) {
    match random.below(6) {
        0 => some_legs(random, day, |_, leg| leg.minutes = 0),
        1 => some_legs(random, day, |random, leg| leg.minutes = random.within(60..=1_440)),
        2 => some_legs(random, day, |random, leg| leg.distance = random.one_of(&[0, 65_535])),
        3 => some(random, &mut day.stops, |random, stop| {
            stop.service = random.one_of(&[0, 0, 60, 240]);
        }),
        4 => some(random, &mut day.tips, |random, tip| {
            tip.service = random.one_of(&[0, 0, 60, 240]);
        }),
        _ => day.rest_minutes = random.one_of(&[0, 1, 120, 240]),
    }
}

/// Changes each item, half of them, or one in six.
fn some<T>(random: &mut Random, items: &mut [T], mut change: impl FnMut(&mut Random, &mut T)) {
    let times = random.one_of(&[1, 2, 6]);
    for item in items {
        if random.once_in(times) {
            change(random, item);
        }
    }
}

/// Changes some legs, but none from a place to itself.
fn some_legs(random: &mut Random, day: &mut Day, change: impl Fn(&mut Random, &mut Leg)) {
    let times = random.one_of(&[1, 2, 6]);
    for (from, row) in day.legs.iter_mut().enumerate() {
        for (to, leg) in row.iter_mut().enumerate() {
            if from != to && random.once_in(times) {
                change(random, leg);
            }
        }
    }
}
