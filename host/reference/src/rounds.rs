//! What is asked of a lawful plan: one vehicle's part of it, and whether two plans have the same
//! rounds.

use std::ops::Range;

use crate::check::check;
use crate::day::Day;
use crate::plan::{self, Word};
use crate::Refusal;

/// Where the words of the vehicle of this number stand, A to E. Refusal 15 comes behind those of
/// the plan; its place is the number.
pub fn vehicle(day: &Day, words: &[u32], number: u64) -> Result<Range<usize>, Refusal> {
    check(day, words)?;
    let mut vehicles = (1..).zip(plan::read(day, words).vehicles);
    let asked = vehicles.find(|(count, _)| *count == number);
    asked.map(|(_, place)| place).ok_or(Refusal { number: 15, place: number })
}

/// "Two lawful plans whose vehicles, in order, visit the same stops in order." The places of the
/// second plan count on from the first's length.
pub fn same_rounds(day: &Day, first: &[u32], second: &[u32]) -> Result<bool, Refusal> {
    check(day, first)?;
    let behind = first.len() as u64;
    check(day, second).map_err(|refusal| Refusal { place: behind + refusal.place, ..refusal })?;
    Ok(rounds(day, first) == rounds(day, second))
}

/// The stops that each vehicle visits.
fn rounds(day: &Day, words: &[u32]) -> Vec<Vec<u32>> {
    let plan = plan::read(day, words);
    let stop = |word: &Word| match *word {
        Word::Stop(stop) => Some(stop),
        _ => None,
    };
    let round =
        |vehicle: &Range<usize>| plan.words[vehicle.clone()].iter().filter_map(stop).collect();
    plan.vehicles.iter().map(round).collect()
}
