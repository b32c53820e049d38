//! Days on which a plan is only just lawful, or only just not: one value is moved as far as the
//! plan stays lawful, or one step further.

use crate::check::check;
use crate::day::Day;
use crate::random::Random;

/// A value of a day, and how far it may be moved in the direction that makes plans harder.
struct Knob {
    value: Box<dyn Fn(&mut Day) -> &mut u32>,
    end: u32,
}

impl Knob {
    fn new(end: u32, value: impl Fn(&mut Day) -> &mut u32 + 'static) -> Self {
        Knob { value: Box::new(value), end }
    }

    fn steps(&self, day: &mut Day) -> u32 {
        self.end.abs_diff(*(self.value)(day))
    }

    fn turned(&self, day: &Day, steps: u32) -> Day {
        let mut day = day.clone();
        let value = (self.value)(&mut day);
        *value = if self.end < *value { *value - steps } else { *value + steps };
        day
    }
}

/// The day with one value at the limit that a lawful plan sets it, or half of the times one step
/// past that.
pub fn at_a_limit(random: &mut Random, day: &Day, plan: &[u32]) -> Day {
    let knob = random_knob(random, day);
    let (mut lawful, mut most) = (0, knob.steps(&mut day.clone()));
    while lawful < most {
        let middle = lawful + (most - lawful).div_ceil(2);
        if check(&knob.turned(day, middle), plan).is_ok() {
            lawful = middle;
        } else {
            most = middle - 1;
        }
    }
    let past = u32::from(random.once_in(2) && lawful < knob.steps(&mut day.clone()));
    knob.turned(day, lawful + past)
}

fn random_knob(random: &mut Random, day: &Day) -> Knob {
    match random.below(4) {
        0 => knob_of_vehicles(random, day),
        1 => knob_of_a_tip(random, day),
        _ if day.stops.is_empty() => knob_of_a_tip(random, day),
        _ => knob_of_a_stop(random, day),
    }
}

fn knob_of_vehicles(random: &mut Random, day: &Day) -> Knob {
    match random.below(8) {
        0 => Knob::new(1, |day| &mut day.limits.load),
        1 => Knob::new(1, |day| &mut day.limits.day_load),
        2 => Knob::new(1, |day| &mut day.limits.day_stops),
        3 => Knob::new(day.depot.opening, |day| &mut day.depot.closing),
        4 => Knob::new(day.depot.closing, |day| &mut day.depot.opening),
        5 => Knob::new(day.rest.opening, |day| &mut day.rest.closing),
        6 => Knob::new(day.rest.closing, |day| &mut day.rest.opening),
        _ => Knob::new(240, |day| &mut day.rest_minutes),
    }
}

fn knob_of_a_tip(random: &mut Random, day: &Day) -> Knob {
    let tip = random.below(day.tips.len());
    let window = day.tips[tip].window;
    match random.below(3) {
        0 => Knob::new(window.opening, move |day| &mut day.tips[tip].window.closing),
        1 => Knob::new(window.closing, move |day| &mut day.tips[tip].window.opening),
        _ => Knob::new(240, move |day| &mut day.tips[tip].service),
    }
}

fn knob_of_a_stop(random: &mut Random, day: &Day) -> Knob {
    let stop = random.below(day.stops.len());
    let window = day.stops[stop].window;
    match random.below(5) {
        0 => Knob::new(window.closing, move |day| &mut day.stops[stop].window.opening),
        1 => Knob::new(240, move |day| &mut day.stops[stop].service),
        2 => Knob::new(100_000, move |day| &mut day.stops[stop].quantity),
        _ => Knob::new(window.opening, move |day| &mut day.stops[stop].window.closing),
    }
}
