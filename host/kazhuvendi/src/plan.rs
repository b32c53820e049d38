//! Plans: the check, one vehicle's part, and whether two plans have the same rounds.

use std::ops::Range;

use crate::{raw, Refusal};

/// What a lawful plan comes to.
#[derive(Clone, Copy, Debug, PartialEq, Eq)]
pub struct Totals {
    /// The sum of the distances of the legs driven.
    pub distance: u64,
    /// The vehicles.
    pub vehicles: usize,
    /// The stops served, which are those not left out.
    pub served: usize,
}

/// Checks a plan of a day: gives its totals where it is lawful, that is where it has the form of a
/// plan, keeps to the limits of loads and stops, and has a timetable that meets every window and
/// the rest.
///
/// # Errors
///
/// The first of refusals 1 to 5 that applies to the day, then of 6 to 12 to the plan.
///
/// ```
/// # let bytes = std::fs::read("../../examples/day-m.day")?;
/// # let mut day = [0; 31];
/// # kazhuvendi::read_words(&bytes, &mut day)?;
/// // Day M. One vehicle serves stop 1, tips and comes back; stop 2 is left out.
/// let mut plan = [0xA0000001, 0xB0000001, 0xC0000001, 0xE0000000, 0xF0000002];
/// let totals = kazhuvendi::check(&day, &plan)?;
/// assert_eq!((totals.distance, totals.vehicles, totals.served), (21, 1, 1));
///
/// // A rest in place of the tip, so the vehicle comes back with its load.
/// plan[2] = 0xD0000000;
/// let refusal = kazhuvendi::check(&day, &plan).unwrap_err();
/// assert_eq!((refusal.number, refusal.place), (10, 3));
/// assert_eq!(refusal.to_string(), "at word 3 of the plan a vehicle comes back with load");
/// # Ok::<(), Box<dyn std::error::Error>>(())
/// ```
pub fn check(day: &[u32], plan: &[u32]) -> Result<Totals, Refusal> {
    let mut out = [0; 6];
    raw::check(day, plan, &mut out);
    match out {
        [0, distance, vehicles, served, ..] => {
            Ok(Totals { distance, vehicles: vehicles as usize, served: served as usize })
        }
        [number, place, ..] => Err(Refusal { number, place }),
    }
}

/// The words of one vehicle of a lawful plan, from its A to its E, as that part of `plan`.
/// Vehicles are counted from 1.
///
/// # Errors
///
/// As [`check`]; then 15 where the plan has no such vehicle.
///
/// ```
/// # let bytes = std::fs::read("../../examples/day-m.day")?;
/// # let mut day = [0; 31];
/// # kazhuvendi::read_words(&bytes, &mut day)?;
/// // Day M, with a vehicle for each stop.
/// let plan = [
///     0xA0000001, 0xB0000001, 0xC0000001, 0xE0000000, //
///     0xA0000002, 0xB0000002, 0xC0000001, 0xE0000000,
/// ];
/// assert_eq!(kazhuvendi::vehicle(&day, &plan, 2)?, &plan[4..8]);
///
/// let refusal = kazhuvendi::vehicle(&day, &plan, 3).unwrap_err();
/// assert_eq!((refusal.number, refusal.place), (15, 3));
/// # Ok::<(), Box<dyn std::error::Error>>(())
/// ```
pub fn vehicle<'p>(day: &[u32], plan: &'p [u32], number: u64) -> Result<&'p [u32], Refusal> {
    vehicle_place(day, plan, number).map(|place| &plan[place])
}

/// Where in `plan` the words of one vehicle stand; otherwise as [`vehicle`].
///
/// # Errors
///
/// As [`vehicle`].
///
/// ```
/// # let bytes = std::fs::read("../../examples/day-m.day")?;
/// # let mut day = [0; 31];
/// # kazhuvendi::read_words(&bytes, &mut day)?;
/// // Day M. The stop that is left out is no vehicle's.
/// let plan = [0xA0000001, 0xB0000001, 0xC0000001, 0xE0000000, 0xF0000002];
/// assert_eq!(kazhuvendi::vehicle_place(&day, &plan, 1), Ok(0..4));
/// # Ok::<(), Box<dyn std::error::Error>>(())
/// ```
pub fn vehicle_place(day: &[u32], plan: &[u32], number: u64) -> Result<Range<usize>, Refusal> {
    let mut out = [0; 6];
    raw::vehicle(day, plan, number, &mut out);
    match out {
        [0, start, length, ..] => Ok(start as usize..(start + length) as usize),
        [number, place, ..] => Err(Refusal { number, place }),
    }
}

/// Whether the vehicles of two lawful plans, in order, visit the same stops in order. Tips and
/// rests do not count.
///
/// # Errors
///
/// As [`check`] for the first plan, to its end; then for the second, whose places count on from
/// the length of the first.
///
/// ```
/// # let bytes = std::fs::read("../../examples/day-m.day")?;
/// # let mut day = [0; 31];
/// # kazhuvendi::read_words(&bytes, &mut day)?;
/// // Day M. The second plan has a rest more.
/// let first = [0xA0000001, 0xB0000001, 0xC0000001, 0xE0000000, 0xF0000002];
/// let second = [0xA0000001, 0xB0000001, 0xC0000001, 0xD0000000, 0xE0000000, 0xF0000002];
/// assert_eq!(kazhuvendi::same_rounds(&day, &first, &second), Ok(true));
///
/// // The second plan cut behind its first word.
/// let refusal = kazhuvendi::same_rounds(&day, &first, &second[..1]).unwrap_err();
/// assert_eq!((refusal.number, refusal.place), (7, 6));
/// # Ok::<(), Box<dyn std::error::Error>>(())
/// ```
pub fn same_rounds(day: &[u32], first: &[u32], second: &[u32]) -> Result<bool, Refusal> {
    let mut out = [0; 6];
    raw::same_rounds(day, first, second, &mut out);
    match out {
        [0, same, ..] => Ok(same == 1),
        [number, place, ..] => Err(Refusal { number, place }),
    }
}
