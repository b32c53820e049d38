//! What breaks the form of a plan: vehicles, each from A to E with at least one B, then F words.

use crate::plans::{stops, vehicles};

use super::plan::Fault;

/// What is wrong with a word behind these, which have the form of a plan.
pub fn broken(fault: &Fault<'_>, before: &[u32], word: u32) -> String {
    let number = (word & 0xFF) as usize;
    let (tips, stops) = (fault.day.tips.len(), fault.day.stops.len());
    match word >> 28 {
        0..=9 => format!("{word:08X} is no word of a plan: those begin with A, B, C, D, E or F"),
        _ if word & 0xFFF_FF00 != 0 => format!("{word:08X} has bits set that have to be 0"),
        0xA => wrong_vehicle(before, number),
        0xF if !is_inside(before) => {
            wrong_number("stop", number, stops).unwrap_or_else(|| not_rising(fault, before, number))
        }
        0xF => {
            let (stop, vehicle) = (fault.stop(number), vehicles(before));
            format!("{stop} is left out before vehicle {vehicle} is back")
        }
        kind if !is_inside(before) => outside(fault, kind, number),
        0xB => wrong_number("stop", number, stops).unwrap_or_default(),
        0xC => wrong_number("tip", number, tips).unwrap_or_default(),
        _ if number != 0 => format!("{word:08X} has the number {number}, which has to be 0"),
        _ => format!("vehicle {} comes back without a stop", vehicles(before)),
    }
}

/// Whether a vehicle is on its way behind these words.
fn is_inside(before: &[u32]) -> bool {
    let turn = before.iter().rev().find(|&word| matches!(word >> 28, 0xA | 0xE));
    turn.is_some_and(|word| word >> 28 == 0xA)
}

fn wrong_vehicle(before: &[u32], number: usize) -> String {
    let count = vehicles(before);
    if is_inside(before) {
        format!("vehicle {number} leaves before vehicle {count} is back")
    } else if before.iter().any(|word| word >> 28 == 0xF) {
        format!("vehicle {number} leaves behind a stop left out, and those come last")
    } else {
        format!("vehicle {number} leaves where vehicle {} is the next", count + 1)
    }
}

/// A stop left out behind another that has a higher number, or the same.
fn not_rising(fault: &Fault<'_>, before: &[u32], number: usize) -> String {
    let last = stops(before).last().map_or(0, |(_, stop)| stop);
    let stop = fault.stop(number);
    format!("{stop} is left out behind stop {last}, and the stops left out have to rise")
}

/// What may only be done by a vehicle that is on its way.
fn outside(fault: &Fault<'_>, kind: u32, number: usize) -> String {
    let what = match kind {
        0xB => fault.stop(number),
        0xC => fault.tip(number),
        0xD => "a rest".to_string(),
        _ => "a way back".to_string(),
    };
    format!("{what} comes where no vehicle is on its way")
}

fn wrong_number(what: &str, number: usize, most: usize) -> Option<String> {
    let there = match most {
        0 => format!("the day has no {what}s"),
        _ => format!("the {what}s of the day are 1 to {most}"),
    };
    let outside = number == 0 || number > most;
    outside.then(|| format!("there is no {what} {number}: {there}"))
}
