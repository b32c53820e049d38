//! A day of which some statements were read.

use std::collections::HashMap;

use super::error::{Spot, TextError};
use super::names::{Names, DEPOT_NAME};
use super::values::Site;
use crate::day::{Day, Stop, Visit, Window};

/// What the statements so far say. What was not said yet is 0 in the day.
#[derive(Debug)]
pub(super) struct Draft {
    pub day: Day,
    pub names: Names,
    pub depot_site: Option<Site>,
    pub tip_sites: Vec<Site>,
    pub stop_sites: Vec<Site>,
    /// Whether a line could not be taken at all, so that nobody knows what is missing.
    pub has_gaps: bool,
    /// What there are too many of, once that is told.
    pub full_of: Option<&'static str>,
    /// The line on which each statement that may be said once was said.
    said: HashMap<&'static str, usize>,
    /// The line on which each name was given.
    named: HashMap<String, usize>,
}

/// What is said exactly once, and before the legs.
const ONCE: [&str; 5] = ["load", "load-a-day", "stops-a-day", "depot", "rest"];

const NEVER: Window = Window { opening: 0, closing: 0 };

/// What stands for a tip or a stop until its line is read to the end.
const NO_VISIT: Visit = Visit { window: NEVER, minutes: 0 };

impl Draft {
    /// A day of which nothing is said.
    pub fn new() -> Draft {
        Draft {
            day: Day {
                depot: NEVER,
                tips: Vec::new(),
                stops: Vec::new(),
                legs: Vec::new(),
                load_limit: 0,
                day_load_limit: 0,
                day_stop_limit: 0,
                rest: NEVER,
                rest_minutes: 0,
            },
            names: Names { day: String::new(), tips: Vec::new(), stops: Vec::new() },
            depot_site: None,
            tip_sites: Vec::new(),
            stop_sites: Vec::new(),
            has_gaps: false,
            full_of: None,
            said: HashMap::new(),
            named: HashMap::new(),
        }
    }

    /// Notes a statement; one that may be said once is refused the second time.
    pub fn say(&mut self, statement: &str, spot: Spot) -> Result<(), TextError> {
        let Some(once) = ONCE.into_iter().find(|once| *once == statement) else { return Ok(()) };
        match self.said.insert(once, spot.line) {
            None => Ok(()),
            Some(line) => Err(spot.error(format!("{once} is said already, on line {line}"))),
        }
    }

    /// One more tip, of which the name alone is known so far.
    pub fn add_tip(&mut self, name: &str, spot: Spot) {
        self.names.tips.push(name.to_string());
        self.day.tips.push(NO_VISIT);
        self.tip_sites.push(Site { position: None, spot, faulty: true });
    }

    /// One more stop, of which the name alone is known so far.
    pub fn add_stop(&mut self, name: &str, spot: Spot) {
        self.names.stops.push(name.to_string());
        self.day.stops.push(Stop { quantity: 0, visit: NO_VISIT });
        self.stop_sites.push(Site { position: None, spot, faulty: true });
    }

    /// What the line of the last tip says.
    pub fn finish_tip(&mut self, visit: Visit, site: Site) {
        replace_last(&mut self.day.tips, visit);
        replace_last(&mut self.tip_sites, site);
    }

    /// What the line of the last stop says.
    pub fn finish_stop(&mut self, stop: Stop, site: Site) {
        replace_last(&mut self.day.stops, stop);
        replace_last(&mut self.stop_sites, site);
    }

    /// Asks that no place before has this name.
    pub fn name(&mut self, name: &str, spot: Spot) -> Result<(), TextError> {
        if name == DEPOT_NAME {
            return Err(spot.error("the name \"depot\" is the depot's"));
        }
        match self.named.insert(name.to_string(), spot.line) {
            None => Ok(()),
            Some(line) => {
                Err(spot.error(format!("the name \"{name}\" is given already, on line {line}")))
            }
        }
    }

    /// What has to be said before the legs, and is not.
    pub fn missing(&self) -> Vec<&'static str> {
        if self.has_gaps {
            return Vec::new();
        }
        let said = |once: &&str| self.said.contains_key(once);
        let unsaid = ONCE.into_iter().filter(|once| !said(once));
        unsaid.chain(self.day.tips.is_empty().then_some("tip")).collect()
    }

    /// The places in the order of a day: the depot, the tips, the stops. There are none where the
    /// depot was not said.
    pub fn sites(&self) -> Vec<Site> {
        let Some(depot) = self.depot_site else { return Vec::new() };
        [depot].iter().chain(&self.tip_sites).chain(&self.stop_sites).copied().collect()
    }
}

fn replace_last<T>(items: &mut [T], item: T) {
    if let Some(last) = items.last_mut() {
        *last = item;
    }
}
