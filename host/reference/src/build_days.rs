//! Days on which the greedy build has something to decide: ties, openings to wait for, loads at
//! four fifths of a limit, rests at the very beginning and tips that open and close.

use crate::damage::file_of;
use crate::day::{Day, Window};
use crate::random::Random;
use crate::samples::random_size;
use crate::workdays::workday;

/// The words of a day of any size, of which one in twenty is damaged.
pub fn random_file(random: &mut Random) -> Vec<u32> {
    let day = random_build_day(random);
    file_of(random, &day)
}

/// A day of any size. Most are small, so that a test has time for many.
pub fn random_build_day(random: &mut Random) -> Day {
    let (stops, tips) = random_size(random);
    build_day(random, stops, tips)
}

/// A day of so many stops and tips: as it would come for the check, or with up to three values
/// that the build decides by.
pub fn build_day(random: &mut Random, stops: usize, tips: usize) -> Day {
    let mut day = workday(random, stops, tips);
    for _ in 0..random.below(4) {
        match random.below(4) {
            0 => twist_rest(random, &mut day),
            1 => twist_openings(random, &mut day),
            2 => twist_loads(random, &mut day),
            _ => twist_legs(random, &mut day),
        }
    }
    day
}

/// A rest that is due at the depot, over before its opening, at one minute, or of no minutes.
fn twist_rest(random: &mut Random, day: &mut Day) {
    let opening = day.depot.opening;
    match random.below(5) {
        0 => day.rest = Window { opening: 0, closing: opening },
        1 => day.rest = Window { opening: 0, closing: opening.saturating_sub(1) },
        2 => day.rest = Window { opening, closing: opening },
        3 => {
            let minute = (opening + random.within(1..=120)).min(1_440);
            day.rest = Window { opening: minute, closing: minute };
        }
        _ => day.rest_minutes = 0,
    }
}

/// Stops that open at a few times of the day, and tips of which each is open for a while. Those that
/// open together need not close together.
fn twist_openings(random: &mut Random, day: &mut Day) {
    let width = random.one_of(&[0, 15, 60, 240]);
    let first = day.depot.opening;
    let later = |random: &mut Random, step: u32| {
        let opening = (first + step * random.within(0..=4)).min(1_440);
        let longer = random.one_of(&[0, 0, 1, 30]);
        Window { opening, closing: (opening + width + longer).min(1_440) }
    };
    if random.once_in(2) {
        let step = random.one_of(&[30, 90, 150]);
        day.stops.iter_mut().for_each(|stop| stop.window = later(random, step));
    } else {
        let step = width.max(1);
        day.tips.iter_mut().for_each(|tip| tip.window = later(random, step));
    }
}

/// Quantities and limits in tenths, so that four fifths of a limit are met exactly and passed by
/// a little.
fn twist_loads(random: &mut Random, day: &mut Day) {
    let tenth = random.one_of(&[1, 10, 37]);
    match random.below(3) {
        0 => day.limits.load = 10 * tenth,
        1 => day.limits.day_load = 20 * tenth,
        _ => day.limits.day_stops = random.one_of(&[1, 4, 5, 10]),
    }
    let most = random.one_of(&[1, 4, 11]);
    for stop in &mut day.stops {
        stop.quantity = tenth * random.within(0..=most) + u32::from(random.once_in(10));
    }
}

/// Legs of few different minutes, so that the nearest is often one of several.
fn twist_legs(random: &mut Random, day: &mut Day) {
    let longest = random.within(0..=3);
    let step = random.one_of(&[1, 5, 20]);
    for (from, row) in day.legs.iter_mut().enumerate() {
        for (to, leg) in row.iter_mut().enumerate() {
            if from != to {
                leg.minutes = step * random.within(0..=longest);
            }
        }
    }
}
