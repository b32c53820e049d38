//! The names of a day and its places.

/// The names that a text gives to the day, its tips and its stops. No two places have the same.
#[derive(Clone, Debug, PartialEq, Eq)]
pub struct Names {
    pub(super) day: String,
    pub(super) tips: Vec<String>,
    pub(super) stops: Vec<String>,
}

/// What the depot is called.
pub(super) const DEPOT_NAME: &str = "depot";

impl Names {
    /// The names for a day that came without any: "stop 1" and on, "tip 1" and on.
    pub fn numbered(stops: usize, tips: usize) -> Names {
        let count = |what: &str, most| (1..=most).map(|k| format!("{what} {k}")).collect();
        Names { day: String::new(), tips: count("tip", tips), stops: count("stop", stops) }
    }

    /// The same names for the places of a day that is called so.
    pub fn of_day(self, day: String) -> Names {
        Names { day, ..self }
    }

    /// The name of the day; empty where it has none.
    pub fn day(&self) -> &str {
        &self.day
    }

    /// The name of a stop, counted from 1.
    pub fn stop(&self, stop: usize) -> &str {
        &self.stops[stop - 1]
    }

    /// The name of a tip, counted from 1.
    pub fn tip(&self, tip: usize) -> &str {
        &self.tips[tip - 1]
    }

    /// How many places have a name, the depot among them.
    pub(super) fn places(&self) -> usize {
        1 + self.tips.len() + self.stops.len()
    }

    /// The name of a place: 0 the depot, then the tips, then the stops.
    pub fn place(&self, place: usize) -> &str {
        match place {
            0 => DEPOT_NAME,
            tip if tip <= self.tips.len() => self.tip(tip),
            stop => self.stop(stop - self.tips.len()),
        }
    }
}
