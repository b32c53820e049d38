//! The day file as a structure, read from words and written as words.

use crate::cursor::Cursor;
use crate::word::{DAY_LOAD, DAY_STOPS, LEG, LOAD, MINUTES, QUANTITY, REST, SIZE, WINDOW};
use crate::Refusal;

/// From the opening minute to the closing one, both counted in.
#[derive(Clone, Copy, Debug, PartialEq, Eq)]
pub struct Window {
    /// E, the opening.
    pub opening: u32,
    /// L, the closing.
    pub closing: u32,
}

/// What no vehicle may pass.
#[derive(Clone, Copy, Debug, PartialEq, Eq)]
pub struct Limits {
    /// Q, the load in kg.
    pub load: u32,
    /// Q*, the kg a day.
    pub day_load: u32,
    /// S*, the stops a day.
    pub day_stops: u32,
}

/// A place where a load is tipped.
#[derive(Clone, Copy, Debug, PartialEq, Eq)]
pub struct Tip {
    /// When a visit may start.
    pub window: Window,
    /// V, the minutes of service.
    pub service: u32,
}

/// A place whose waste is collected.
#[derive(Clone, Copy, Debug, PartialEq, Eq)]
pub struct Stop {
    /// When a visit may start.
    pub window: Window,
    /// V, the minutes of service.
    pub service: u32,
    /// q, in kg. It may exceed the load of a vehicle.
    pub quantity: u32,
}

/// The way from one place to another.
#[derive(Clone, Copy, Debug, PartialEq, Eq)]
pub struct Leg {
    /// t, in minutes.
    pub minutes: u32,
    /// The distance.
    pub distance: u32,
}

impl Leg {
    /// The way from a place to itself.
    pub const NONE: Leg = Leg { minutes: 0, distance: 0 };
}

/// A day that document 01 accepts.
#[derive(Clone, Debug, PartialEq, Eq)]
pub struct Day {
    /// What no vehicle may pass.
    pub limits: Limits,
    /// When the depot is open.
    pub depot: Window,
    /// R1, R2: when a rest may start.
    pub rest: Window,
    /// R3, the minutes of a rest.
    pub rest_minutes: u32,
    /// The tips, places 1 to d.
    pub tips: Vec<Tip>,
    /// The stops, places d + 1 to d + n.
    pub stops: Vec<Stop>,
    /// The legs: one row for each place that is left, with one leg for each place that is reached.
    pub legs: Vec<Vec<Leg>>,
}

/// The day that these words are, or the first of refusals 1 to 5.
pub fn read(words: &[u32]) -> Result<Day, Refusal> {
    let mut cursor = Cursor::over(words)?;
    let (tips, stops) = cursor.size()?;
    let places = 1 + tips + stops;
    Ok(Day {
        limits: Limits {
            load: cursor.number(LOAD, 1..=100_000)?,
            day_load: cursor.number(DAY_LOAD, 1..=1_000_000)?,
            day_stops: cursor.number(DAY_STOPS, 1..=240)?,
        },
        depot: cursor.window(WINDOW)?,
        rest: cursor.window(REST)?,
        rest_minutes: cursor.number(MINUTES, 0..=240)?,
        tips: (0..tips).map(|_| cursor.tip()).collect::<Result<_, _>>()?,
        stops: (0..stops).map(|_| cursor.stop()).collect::<Result<_, _>>()?,
        legs: (0..places).map(|from| cursor.row(from, places)).collect::<Result<_, _>>()?,
    })
}

impl Window {
    fn values(self) -> [u32; 2] {
        [self.opening, self.closing]
    }
}

impl Day {
    /// The words of the day file.
    pub fn words(&self) -> Vec<u32> {
        let mut words = self.head().to_vec();
        for tip in &self.tips {
            words.push(WINDOW.word(tip.window.values()));
            words.push(MINUTES.word([tip.service]));
        }
        for stop in &self.stops {
            words.push(WINDOW.word(stop.window.values()));
            words.push(MINUTES.word([stop.service]));
            words.push(QUANTITY.word([stop.quantity]));
        }
        let legs = self.legs.iter().flatten();
        words.extend(legs.map(|leg| LEG.word([leg.minutes, leg.distance])));
        words
    }

    fn head(&self) -> [u32; 7] {
        [
            SIZE.word([self.tips.len() as u32, self.stops.len() as u32]),
            LOAD.word([self.limits.load]),
            DAY_LOAD.word([self.limits.day_load]),
            DAY_STOPS.word([self.limits.day_stops]),
            WINDOW.word(self.depot.values()),
            REST.word(self.rest.values()),
            MINUTES.word([self.rest_minutes]),
        ]
    }
}
