//! What is wrong with a plan that is refused.

use kazhuvendi::Refusal;

use crate::clock::time;
use crate::day::Day;
use crate::inputs::{GivenDay, GivenPlan};
use crate::plans;
use crate::sheet::{Act, Entry, Round, Sheet};
use crate::text::Names;

use super::{form, Refused, Spot};

/// The refusal of a plan of an accepted day.
pub fn refused(refusal: Refusal, given: &GivenDay, plan: &GivenPlan) -> Refused {
    let day = Day::of(&given.words);
    let fault = Fault { day, names: &given.names, plan: &plan.words };
    let (place, file) = (refusal.place as usize, plan.file.name.clone());
    let (sentence, spot, place) = match plan.words.get(place) {
        _ if refusal.number == 6 => (fault.too_long(place), Spot::File(file), None),
        Some(word) => {
            (fault.sentence(refusal, *word), plan.file.spot(place), plans::place_of(*word))
        }
        None if refusal.number == 7 => (fault.not_back(), Spot::End(file), None),
        None => {
            let (sentence, stop) = fault.missing();
            (sentence, Spot::End(file), Some(plans::Place::Stop(stop)))
        }
    };
    let day_spot = place.and_then(|place| said(given, place));
    Refused { day_spot, ..Refused::of(refusal, sentence).at(spot) }
}

/// The refusal of a vehicle that a lawful plan does not have.
pub fn no_vehicle(refusal: Refusal, plan: &GivenPlan) -> Refused {
    let (asked, there) = (refusal.place, plans::vehicles(&plan.words));
    let sentence = format!("there is no vehicle {asked} in the plan, which has {there}");
    Refused::of(refusal, sentence).at(Spot::File(plan.file.name.clone()))
}

/// Where the day's text says what a stop or tip asks for.
fn said(given: &GivenDay, place: plans::Place) -> Option<Spot> {
    let (what, line) = match place {
        plans::Place::Stop(stop) => (format!("stop {stop}"), given.lines.stop(stop)?),
        plans::Place::Tip(tip) => (format!("tip {tip}"), given.lines.tip(tip)?),
    };
    Some(Spot::Said { what, line, file: given.file.clone() })
}

/// A plan that is refused, with its day.
pub(super) struct Fault<'p> {
    pub day: Day,
    names: &'p Names,
    plan: &'p [u32],
}

impl Fault<'_> {
    /// A stop by its number, and by its name where it has one.
    pub fn stop(&self, stop: usize) -> String {
        let known = (1..=self.day.stops.len()).contains(&stop);
        named(format!("stop {stop}"), known.then(|| self.names.stop(stop)))
    }

    /// A tip by its number, and by its name where it has one.
    pub fn tip(&self, tip: usize) -> String {
        let known = (1..=self.day.tips.len()).contains(&tip);
        named(format!("tip {tip}"), known.then(|| self.names.tip(tip)))
    }

    fn sentence(&self, refusal: Refusal, word: u32) -> String {
        let place = refusal.place as usize;
        match refusal.number {
            7 => form::broken(self, &self.plan[..place], word),
            8 => self.met_again(word),
            _ => self.out_of_limits(refusal),
        }
    }

    fn too_long(&self, most: usize) -> String {
        format!("the plan has {} words, and a plan has at most {most}", self.plan.len())
    }

    fn not_back(&self) -> String {
        format!("the plan ends before vehicle {} is back", plans::vehicles(self.plan))
    }

    /// The first stop that a plan lacks at its end.
    fn missing(&self) -> (String, usize) {
        let numbers = || plans::stops(self.plan).map(|(_, stop)| stop);
        let missing = (1..=self.day.stops.len()).find(|stop| !numbers().any(|met| met == *stop));
        let stop = missing.unwrap_or_default();
        (format!("{} is neither served nor left out", self.stop(stop)), stop)
    }

    fn met_again(&self, word: u32) -> String {
        let stop = (word & 0xFF) as usize;
        let before = plans::stops(self.plan).find(|(_, met)| *met == stop);
        let first = before.map_or(0, |(first, _)| first);
        format!("{} comes a second time: word {first} has it already", self.stop(stop))
    }

    /// What is over a limit of load, count or time. The words up to the place have the form of a
    /// plan, so what the vehicle does can be followed up to there.
    fn out_of_limits(&self, refusal: Refusal) -> String {
        let sheet = Sheet::of(&self.day, &self.plan[..=refusal.place as usize]);
        match sheet.rounds.last().map(|round| (round, round.entries.as_slice())) {
            Some((round, [before @ .., last])) => match refusal.number {
                9 => self.over(round, last),
                10 => {
                    format!("vehicle {} comes back with {} kg on board", round.number, last.load)
                }
                11 => self.late(round, last),
                _ => self.unrested(round, before, last),
            },
            _ => refusal.to_string(),
        }
    }

    fn over(&self, round: &Round, last: &Entry) -> String {
        let (day, vehicle) = (&self.day, round.number);
        let stop = match last.act {
            Act::Stop(stop) => self.stop(stop),
            _ => "this word".to_string(),
        };
        if last.load > day.load_limit {
            let (load, limit) = (last.load, day.load_limit);
            format!("{stop} loads vehicle {vehicle} with {load} kg, and {limit} kg is the most")
        } else if round.collected > day.day_load_limit {
            let (collected, limit) = (round.collected, day.day_load_limit);
            format!(
                "{stop} brings vehicle {vehicle} to {collected} kg in the day, and {limit} kg is \
                 the most"
            )
        } else {
            let (stops, limit) = (round.stops, day.day_stop_limit);
            format!("{stop} is stop number {stops} of vehicle {vehicle}, and {limit} is the most")
        }
    }

    fn late(&self, round: &Round, last: &Entry) -> String {
        let (vehicle, start) = (round.number, time(last.start));
        let (what, closing) = match last.act {
            Act::Stop(stop) => (self.stop(stop), self.day.stops[stop - 1].visit.window.closing),
            Act::Tip(tip) => (self.tip(tip), self.day.tips[tip - 1].window.closing),
            _ => {
                let closing = time(self.day.depot.closing);
                return format!(
                    "vehicle {vehicle} is back at {start}, and the depot closes at {closing}"
                );
            }
        };
        format!(
            "{what} is reached by vehicle {vehicle} at {start}, and closes at {}",
            time(closing)
        )
    }

    fn unrested(&self, round: &Round, before: &[Entry], last: &Entry) -> String {
        let (vehicle, start) = (round.number, time(last.start));
        let closing = time(self.day.rest.closing);
        if last.act == Act::Back {
            format!(
                "vehicle {vehicle} is back at {start} without a rest, which was due by {closing}"
            )
        } else if before.iter().any(|entry| entry.act == Act::Rest) {
            format!("vehicle {vehicle} rests a second time, and it may rest once")
        } else {
            format!("vehicle {vehicle} rests at {start}, and a rest has to start by {closing}")
        }
    }
}

/// A name behind a number, where it says more than the number does.
fn named(numbered: String, name: Option<&str>) -> String {
    match name {
        Some(name) if name != numbered => format!("{numbered} ({name})"),
        _ => numbered,
    }
}
