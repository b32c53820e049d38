//! An accepted day by the names of the field, taken from its words and put back into words.

use std::ops::RangeInclusive;

/// The minutes at which something may start, both ends counted in.
#[derive(Clone, Copy, Debug, PartialEq, Eq)]
pub struct Window {
    /// E, the opening, in minutes from midnight.
    pub opening: u32,
    /// L, the closing.
    pub closing: u32,
}

/// "Each visit", of a tip or a stop: it starts within its window and lasts V.
#[derive(Clone, Copy, Debug, PartialEq, Eq)]
pub struct Visit {
    /// When it may start.
    pub window: Window,
    /// V, how many minutes it takes.
    pub minutes: u32,
}

/// A place where waste is collected.
#[derive(Clone, Copy, Debug, PartialEq, Eq)]
pub struct Stop {
    /// q, the kg to collect.
    pub quantity: u32,
    /// When it is served, and for how long.
    pub visit: Visit,
}

/// The way from one place to another.
#[derive(Clone, Copy, Debug, Default, PartialEq, Eq)]
pub struct Leg {
    /// t, the minutes on the way.
    pub minutes: u32,
    /// The distance, in whatever unit the day was made with.
    pub distance: u32,
}

/// An accepted day. Stops and tips are counted from 1 in plans, so stop k is `stops[k - 1]`.
#[derive(Clone, Debug, PartialEq, Eq)]
pub struct Day {
    /// When vehicles may leave, and by when they are back.
    pub depot: Window,
    /// The tips, places 1 to d, where loads are emptied.
    pub tips: Vec<Visit>,
    /// The stops, places d + 1 to d + n.
    pub stops: Vec<Stop>,
    /// The legs, row by row: a row for each place that is left.
    pub legs: Vec<Leg>,
    /// Q, the most kg on board.
    pub load_limit: u32,
    /// Q*, the most kg that a vehicle collects in the day.
    pub day_load_limit: u32,
    /// S*, the most stops that a vehicle serves in the day.
    pub day_stop_limit: u32,
    /// R1, R2: when a rest may start.
    pub rest: Window,
    /// R3, the minutes of a rest.
    pub rest_minutes: u32,
}

/// What document 01 lets each number of a day be.
pub mod range {
    use super::RangeInclusive;

    /// Q, in kg.
    pub const LOAD: RangeInclusive<u32> = 1..=100_000;
    /// Q*, in kg.
    pub const DAY_LOAD: RangeInclusive<u32> = 1..=1_000_000;
    /// S*.
    pub const DAY_STOPS: RangeInclusive<u32> = 1..=240;
    /// Minutes from midnight, and the minutes of a leg.
    pub const MINUTE: RangeInclusive<u32> = 0..=1_440;
    /// The minutes of a service or a rest.
    pub const SERVICE: RangeInclusive<u32> = 0..=240;
    /// q, in kg.
    pub const QUANTITY: RangeInclusive<u32> = 0..=100_000;
    /// The distance of a leg.
    pub const DISTANCE: RangeInclusive<u32> = 0..=65_535;
    /// n, the stops of a day.
    pub const STOPS: RangeInclusive<usize> = 0..=240;
    /// d, the tips of a day.
    pub const TIPS: RangeInclusive<usize> = 1..=15;
}

/// The depot's number among the places.
pub const DEPOT: usize = 0;

impl Day {
    /// The day that these words are.
    ///
    /// # Panics
    ///
    /// Where `kazhuvendi::judge` refuses the words.
    pub fn of(words: &[u32]) -> Day {
        let size = kazhuvendi::judge(words).expect("the words are those of an accepted day");
        let (head, behind) = words.split_at(7);
        let (tips, behind) = behind.split_at(2 * size.tips);
        let (stops, legs) = behind.split_at(3 * size.stops);
        Day {
            load_limit: number(head[1]),
            day_load_limit: number(head[2]),
            day_stop_limit: number(head[3]),
            depot: window(head[4]),
            rest: window(head[5]),
            rest_minutes: number(head[6]),
            tips: tips.chunks(2).map(visit).collect(),
            stops: stops.chunks(3).map(stop).collect(),
            legs: legs.iter().copied().map(leg).collect(),
        }
    }

    /// The words of the day file. They are accepted where every number is within its [`range`],
    /// no window closes before it opens, and there is a leg for each two places.
    pub fn words(&self) -> Vec<u32> {
        let size = (self.tips.len() << 8 | self.stops.len()) as u32;
        let limits = [self.load_limit, self.day_load_limit, self.day_stop_limit];
        let mut words = vec![1 << 28 | size];
        words.extend((2..).zip(limits).map(|(kind, limit)| kind << 28 | limit));
        words.extend([window_word(5, self.depot), window_word(6, self.rest)]);
        words.push(7 << 28 | self.rest_minutes);
        for tip in &self.tips {
            words.extend(visit_words(tip));
        }
        for stop in &self.stops {
            words.extend(visit_words(&stop.visit));
            words.push(8 << 28 | stop.quantity);
        }
        words.extend(self.legs.iter().map(|leg| 9 << 28 | leg.minutes << 16 | leg.distance));
        words
    }

    /// P, the places: the depot, the tips and the stops.
    pub fn places(&self) -> usize {
        1 + self.tips.len() + self.stops.len()
    }

    /// The number of stop k among the places.
    pub fn place_of_stop(&self, stop: usize) -> usize {
        self.tips.len() + stop
    }

    /// The leg from one place to another.
    pub fn leg(&self, from: usize, to: usize) -> Leg {
        self.legs[from * self.places() + to]
    }
}

fn number(word: u32) -> u32 {
    word & 0x7FF_FFFF
}

fn window(word: u32) -> Window {
    Window { opening: word >> 12 & 0xFFF, closing: word & 0xFFF }
}

fn window_word(kind: u32, window: Window) -> u32 {
    kind << 28 | window.opening << 12 | window.closing
}

fn visit(words: &[u32]) -> Visit {
    Visit { window: window(words[0]), minutes: number(words[1]) }
}

fn visit_words(visit: &Visit) -> [u32; 2] {
    [window_word(5, visit.window), 7 << 28 | visit.minutes]
}

fn stop(words: &[u32]) -> Stop {
    Stop { quantity: number(words[2]), visit: visit(words) }
}

fn leg(word: u32) -> Leg {
    Leg { minutes: word >> 16 & 0xFFF, distance: word & 0xFFFF }
}
