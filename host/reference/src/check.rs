//! The check of a plan. Each rule is asked by itself for the first word that breaks it, whatever
//! the other rules say; of all these words the first is refused, for the lowest number.

use crate::day::Day;
use crate::plan::{self, Plan, Word};
use crate::timetable::{self, place_of};
use crate::Refusal;

/// "A plan is at most 4,096 words."
pub const MOST_WORDS: usize = 4_096;

/// What the answer to a lawful plan carries.
#[derive(Clone, Copy, Debug, PartialEq, Eq)]
pub struct Totals {
    /// The sum over the legs driven.
    pub distance: u64,
    /// The vehicles.
    pub vehicles: u64,
    /// The stops served, B words.
    pub served: u64,
}

/// A word that breaks a rule: its index, then the number of the refusal. In this order the least
/// of several offences is the one to refuse.
type Offence = (usize, u64);

/// The totals of a lawful plan, or the first of refusals 6 to 12.
pub fn check(day: &Day, words: &[u32]) -> Result<Totals, Refusal> {
    if words.len() > MOST_WORDS {
        return Err(Refusal { number: 6, place: MOST_WORDS as u64 });
    }
    let plan = plan::read(day, words);
    let of_vehicles = plan.vehicles.iter().filter_map(|vehicle| {
        let (index, number) = offence_of_vehicle(day, &plan.words[vehicle.clone()])?;
        Some((vehicle.start + index, number))
    });
    let of_all = [broken_form(&plan), met_again(&plan), missing(day, &plan, words.len())];
    match of_vehicles.chain(of_all.into_iter().flatten()).min() {
        Some((index, number)) => Err(Refusal { number, place: index as u64 }),
        None => Ok(totals(day, &plan)),
    }
}

/// 7: the word behind those in order. A plan cut inside a vehicle has none there, and the place is
/// its length.
fn broken_form(plan: &Plan) -> Option<Offence> {
    plan.broken.then_some((plan.words.len(), 7))
}

/// The stop that a word names, served or left out.
fn named(word: &Word) -> Option<u32> {
    match *word {
        Word::Stop(stop) | Word::LeftOut(stop) => Some(stop),
        _ => None,
    }
}

/// 8: a stop that an earlier word names too.
fn met_again(plan: &Plan) -> Option<Offence> {
    let mut first = [None; 256];
    let index = plan.words.iter().enumerate().position(|(index, word)| {
        named(word).is_some_and(|stop| *first[stop as usize].get_or_insert(index) != index)
    });
    index.map(|index| (index, 8))
}

/// 8: a stop that no word names, known at the end of the plan.
fn missing(day: &Day, plan: &Plan, length: usize) -> Option<Offence> {
    let mut met: Vec<u32> = plan.words.iter().filter_map(named).collect();
    met.sort_unstable();
    met.dedup();
    (met.len() < day.stops.len()).then_some((length, 8))
}

/// The first offence among the words of one vehicle, counted from its A.
fn offence_of_vehicle(day: &Day, words: &[Word]) -> Option<Offence> {
    let first_of_each = [
        overloaded(day, words),
        back_with_load(day, words),
        late(day, words),
        second_rest(words),
        unrested(day, words),
    ];
    first_of_each.into_iter().flatten().min()
}

/// 9: over Q, Q* or S*, counted over all that the vehicle has done with this stop.
fn overloaded(day: &Day, words: &[Word]) -> Option<Offence> {
    let over = |index: &usize| {
        let done = &words[..=*index];
        matches!(words[*index], Word::Stop(_))
            && (kg(day, since_tip(done)) > day.limits.load
                || kg(day, done) > day.limits.day_load
                || served(done) > day.limits.day_stops as usize)
    };
    (0..words.len()).find(over).map(|index| (index, 9))
}

/// 10: back with kg that were not emptied at a tip.
fn back_with_load(day: &Day, words: &[Word]) -> Option<Offence> {
    let index = words.iter().position(|word| *word == Word::Back)?;
    (kg(day, since_tip(words)) > 0).then_some((index, 10))
}

/// 11, or 12 for a rest: the word with which there is no timetable any more. A timetable of more
/// words is one of fewer too, so those that have one come first.
fn late(day: &Day, words: &[Word]) -> Option<Offence> {
    let lengths: Vec<usize> = (1..=words.len()).collect();
    let in_time = |length: &usize| timetable::exists(day, &words[..*length], day.depot.closing);
    let index = lengths.partition_point(in_time);
    let number = if *words.get(index)? == Word::Rest { 12 } else { 11 };
    Some((index, number))
}

/// 12: at most one D.
fn second_rest(words: &[Word]) -> Option<Offence> {
    let mut rests = (0..words.len()).filter(|index| words[*index] == Word::Rest);
    rests.nth(1).map(|index| (index, 12))
}

/// 12: back after R2 with no rest.
fn unrested(day: &Day, words: &[Word]) -> Option<Offence> {
    let index = words.iter().position(|word| *word == Word::Back)?;
    let late = !words.contains(&Word::Rest) && !timetable::exists(day, words, day.rest.closing);
    late.then_some((index, 12))
}

/// Whether a vehicle from its A to its E meets its limits, comes back empty and has a timetable.
pub fn vehicle_is_lawful(day: &Day, words: &[Word]) -> bool {
    let rests = words.iter().filter(|word| **word == Word::Rest).count();
    let lunch_by = if rests == 0 { day.rest.closing } else { u32::MAX };
    let mut loads = words.split(|word| matches!(word, Word::Tip(_)));
    served(words) >= 1
        && served(words) <= day.limits.day_stops as usize
        && kg(day, words) <= day.limits.day_load
        && loads.all(|load| kg(day, load) <= day.limits.load)
        && kg(day, since_tip(words)) == 0
        && rests <= 1
        && timetable::exists(day, words, lunch_by.min(day.depot.closing))
}

/// The words behind the last tip.
fn since_tip(words: &[Word]) -> &[Word] {
    words.rsplit(|word| matches!(word, Word::Tip(_))).next().expect("there is a last part")
}

fn kg(day: &Day, words: &[Word]) -> u32 {
    let quantity = |word: &Word| match *word {
        Word::Stop(stop) => day.stops[stop as usize - 1].quantity,
        _ => 0,
    };
    words.iter().map(quantity).sum()
}

fn served(words: &[Word]) -> usize {
    words.iter().filter(|word| matches!(word, Word::Stop(_))).count()
}

fn totals(day: &Day, plan: &Plan) -> Totals {
    let distance_of = |vehicle: &[Word]| -> u64 {
        let places: Vec<usize> = vehicle.iter().filter_map(|word| place_of(day, *word)).collect();
        places.windows(2).map(|pair| u64::from(day.legs[pair[0]][pair[1]].distance)).sum()
    };
    let vehicles = plan.vehicles.iter().map(|vehicle| &plan.words[vehicle.clone()]);
    Totals {
        distance: vehicles.map(distance_of).sum(),
        vehicles: plan.vehicles.len() as u64,
        served: served(&plan.words) as u64,
    }
}
