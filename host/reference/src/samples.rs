//! Days to try things on: day M of document 01, and random days of any size.

use std::ops::RangeInclusive;

use crate::day::{Day, Leg, Limits, Stop, Tip, Window};
use crate::random::Random;

/// Day M of document 01.
pub fn day_m() -> Day {
    let tip = Tip { window: Window { opening: 0, closing: 100 }, service: 5 };
    let stop = |quantity| Stop { window: Window { opening: 0, closing: 50 }, service: 5, quantity };
    Day {
        limits: Limits { load: 100, day_load: 200, day_stops: 5 },
        depot: Window { opening: 0, closing: 100 },
        rest: Window { opening: 30, closing: 60 },
        rest_minutes: 10,
        tips: vec![tip],
        stops: vec![stop(60), stop(50)],
        legs: legs(4, || Leg { minutes: 10, distance: 7 }),
    }
}

/// A day of so many stops and tips that is accepted. Any value of a range may come up, and its
/// limits come up often.
pub fn random_day(random: &mut Random, stops: usize, tips: usize) -> Day {
    Day {
        limits: Limits {
            load: value(random, 1..=100_000),
            day_load: value(random, 1..=1_000_000),
            day_stops: value(random, 1..=240),
        },
        depot: window(random),
        rest: window(random),
        rest_minutes: value(random, 0..=240),
        tips: (0..tips).map(|_| random_tip(random)).collect(),
        stops: (0..stops).map(|_| random_stop(random)).collect(),
        legs: legs(1 + tips + stops, || Leg {
            minutes: value(random, 0..=1_440),
            distance: value(random, 0..=65_535),
        }),
    }
}

/// How many stops and tips a random day has. Most are small, so that a test has time for many.
pub fn random_size(random: &mut Random) -> (usize, usize) {
    let most_stops = match random.below(40) {
        0 => 240,
        1..=4 => 60,
        _ => 8,
    };
    (random.below(most_stops + 1), 1 + random.below(15))
}

fn random_tip(random: &mut Random) -> Tip {
    Tip { window: window(random), service: value(random, 0..=240) }
}

fn random_stop(random: &mut Random) -> Stop {
    Stop {
        window: window(random),
        service: value(random, 0..=240),
        quantity: value(random, 0..=100_000),
    }
}

pub(crate) fn window(random: &mut Random) -> Window {
    let closing = value(random, 0..=1_440);
    Window { opening: value(random, 0..=closing), closing }
}

/// A value of the range, a limit of it once in eight times.
pub(crate) fn value(random: &mut Random, range: RangeInclusive<u32>) -> u32 {
    match random.below(16) {
        0 => *range.start(),
        1 => *range.end(),
        _ => random.within(range),
    }
}

/// Square legs, each as `leg` says but those from a place to itself.
pub(crate) fn legs(places: usize, mut leg: impl FnMut() -> Leg) -> Vec<Vec<Leg>> {
    let mut row = |from: usize| {
        let to = |to| if from == to { Leg::NONE } else { leg() };
        (0..places).map(to).collect()
    };
    (0..places).map(&mut row).collect()
}
