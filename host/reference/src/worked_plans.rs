//! Plans of day M, and of day M with some words changed, whose answers were worked out by hand
//! from document 01. On day M each leg takes 10 minutes and each visit 5, so a vehicle that waits
//! nowhere starts its visits at 10, 25, 40 and so on.

use crate::day::Day;
use crate::samples::day_m;
use crate::worked::{with_words, DAY_M};

/// Distance, vehicles and stops served; or number and place of the refusal.
pub type Answer = Result<(u64, u64, u64), (u64, u64)>;

/// What the plan shows; the words of day M that are others, by their index; the plan; the answer.
pub type Worked = (&'static str, &'static [(usize, u32)], &'static [u32], Answer);

const fn lawful(distance: u64, vehicles: u64, served: u64) -> Answer {
    Ok((distance, vehicles, served))
}

const fn refused(number: u64, place: u64) -> Answer {
    Err((number, place))
}

/// The first vehicle.
pub const A1: u32 = 0xA000_0001;
/// The second vehicle.
pub const A2: u32 = 0xA000_0002;
/// Stop 1.
pub const B1: u32 = 0xB000_0001;
/// Stop 2.
pub const B2: u32 = 0xB000_0002;
/// The tip.
pub const C1: u32 = 0xC000_0001;
/// A rest.
pub const D: u32 = 0xD000_0000;
/// Back.
pub const E: u32 = 0xE000_0000;
/// Stop 1 left out.
pub const F1: u32 = 0xF000_0001;
/// Stop 2 left out.
pub const F2: u32 = 0xF000_0002;

/// The plan of case (a).
pub const PLAN_M: [u32; 7] = [A1, B1, C1, D, B2, C1, E];

/// A plan of day M of two vehicles, as in case (c).
pub const TWO_VEHICLES: [u32; 8] = [A1, B1, C1, E, A2, B2, C1, E];

/// Cases (h) and (i), then the words of a plan one by one.
pub const FORMS: &[Worked] = &[
    ("(a)", &[], &PLAN_M, lawful(35, 1, 2)),
    ("(h) rest window 20..40", &[(5, 0x6001_4028)], &[A1, B1, C1, E, F2], lawful(21, 1, 1)),
    ("(i) rest window 20..39", &[(5, 0x6001_4027)], &[A1, B1, C1, E, F2], refused(12, 3)),
    ("two vehicles", &[], &TWO_VEHICLES, lawful(42, 2, 2)),
    ("every stop left out", &[], &[F1, F2], lawful(0, 0, 0)),
    // stray bits, and a day's kind
    ("stray bit 8 of A", &[], &[0xA000_0101], refused(7, 0)),
    ("stray bit 27 of A", &[], &[0xA800_0001], refused(7, 0)),
    ("stray bit 8 of B", &[], &[A1, 0xB000_0101], refused(7, 1)),
    ("stray bit 26 of B", &[], &[A1, 0xB400_0001], refused(7, 1)),
    ("stray bit 12 of C", &[], &[A1, B1, 0xC000_1001], refused(7, 2)),
    ("stray bit 16 of D", &[], &[A1, 0xD001_0000], refused(7, 1)),
    ("stray bit 27 of E", &[], &[A1, B1, C1, 0xE800_0000], refused(7, 3)),
    ("stray bit 9 of F", &[], &[0xF000_0201], refused(7, 0)),
    ("no word at all", &[], &[0], refused(7, 0)),
    ("a day's word 0", &[], &[0x1000_0102], refused(7, 0)),
    ("a leg", &[], &[A1, 0x9000_0000], refused(7, 1)),
    ("a leg behind the stops left out", &[], &[F1, F2, 0x9000_0001], refused(7, 2)),
    // numbers outside
    ("D with a number", &[], &[A1, 0xD000_0001], refused(7, 1)),
    ("E with a number", &[], &[A1, B1, C1, 0xE000_0001], refused(7, 3)),
    ("stop 0", &[], &[A1, 0xB000_0000], refused(7, 1)),
    ("stop 3 of two", &[], &[A1, 0xB000_0003], refused(7, 1)),
    ("stop 255 of two", &[], &[A1, 0xB000_00FF], refused(7, 1)),
    ("tip 0", &[], &[A1, 0xC000_0000], refused(7, 1)),
    ("tip 2 of one", &[], &[A1, 0xC000_0002], refused(7, 1)),
    ("stop 0 left out", &[], &[0xF000_0000], refused(7, 0)),
    ("stop 3 of two left out", &[], &[F1, F2, 0xF000_0003], refused(7, 2)),
    ("vehicle 0", &[], &[0xA000_0000], refused(7, 0)),
    ("vehicle 2 first", &[], &[A2], refused(7, 0)),
    ("vehicle 1 again", &[], &[A1, B1, C1, E, A1], refused(7, 4)),
    ("vehicle 3 behind 1", &[], &[A1, B1, C1, E, 0xA000_0003], refused(7, 4)),
    // a vehicle with no B
    ("out and back", &[], &[A1, E], refused(7, 1)),
    ("only a tip", &[], &[A1, C1, E], refused(7, 2)),
    ("only a rest", &[], &[A1, D, E], refused(7, 2)),
    ("no B on the second vehicle", &[], &[A1, B1, C1, E, A2, C1, E], refused(7, 6)),
    // words where they may not stand
    ("A inside a vehicle", &[], &[A1, A2], refused(7, 1)),
    ("F inside a vehicle", &[], &[A1, B1, F2], refused(7, 2)),
    ("B outside", &[], &[B1], refused(7, 0)),
    ("C outside", &[], &[C1], refused(7, 0)),
    ("D outside", &[], &[D], refused(7, 0)),
    ("E outside", &[], &[E], refused(7, 0)),
    ("B behind a vehicle", &[], &[A1, B1, C1, E, B2], refused(7, 4)),
    ("D behind a vehicle", &[], &[A1, B1, C1, E, D], refused(7, 4)),
    ("E behind a vehicle", &[], &[A1, B1, C1, E, E], refused(7, 4)),
    ("A behind an F", &[], &[F1, A1], refused(7, 1)),
    ("A behind an F behind a vehicle", &[], &[A1, B1, C1, E, F2, A2], refused(7, 5)),
    ("B behind an F", &[], &[F1, B2], refused(7, 1)),
    ("E behind an F", &[], &[F1, E], refused(7, 1)),
    // the stops left out rise
    ("F falling", &[], &[F2, F1], refused(7, 1)),
    ("F the same again", &[], &[F1, F1], refused(7, 1)),
    ("F that rises and is served", &[], &[A1, B1, C1, E, F1], refused(8, 4)),
    ("F that rises behind an F and is served", &[], &[A1, B2, C1, E, F1, F2], refused(8, 5)),
    // every stop exactly once
    ("stop 1 twice on a vehicle", &[], &[A1, B1, C1, B1], refused(8, 3)),
    ("stop 1 on two vehicles", &[], &[A1, B1, C1, E, A2, B1], refused(8, 5)),
    ("no words", &[], &[], refused(8, 0)),
    ("stop 2 missing", &[], &[A1, B1, C1, E], refused(8, 4)),
    ("stop 1 missing", &[], &[F2], refused(8, 1)),
    // cut inside a vehicle
    ("cut behind A", &[], &[A1], refused(7, 1)),
    ("cut before the tip", &[], &[A1, B1], refused(7, 2)),
    ("cut before E", &[], &[A1, B1, C1, D, B2, C1], refused(7, 6)),
    ("cut inside the second vehicle", &[], &[A1, B1, C1, E, A2, B2], refused(7, 6)),
];

/// Loads, counts and minutes, and which of several refusals comes first.
pub const RULES: &[Worked] = &[
    // loads and counts
    ("110 kg of 100", &[], &[A1, B1, B2, C1, E], refused(9, 2)),
    ("110 kg of 110", &[(1, 0x2000_006E)], &[A1, B1, B2, C1, E], lawful(28, 1, 2)),
    ("110 kg of 109", &[(1, 0x2000_006D)], &[A1, B1, B2, C1, E], refused(9, 2)),
    ("one stop over Q", &[(11, 0x8000_0065)], &[A1, B1, C1, E, F2], refused(9, 1)),
    ("one stop of Q", &[(11, 0x8000_0064)], &[A1, B1, C1, E, F2], lawful(21, 1, 1)),
    ("110 kg a day of 110", &[(2, 0x3000_006E)], &PLAN_M, lawful(35, 1, 2)),
    ("the day's kg stay at a tip", &[(2, 0x3000_006D)], &PLAN_M, refused(9, 4)),
    ("each vehicle has its own day", &[(2, 0x3000_003C)], &TWO_VEHICLES, lawful(42, 2, 2)),
    ("two stops of one", &[(3, 0x4000_0001)], &PLAN_M, refused(9, 4)),
    ("one stop a vehicle", &[(3, 0x4000_0001)], &TWO_VEHICLES, lawful(42, 2, 2)),
    ("back with load", &[], &[A1, B1, E], refused(10, 2)),
    ("back with load behind a tip", &[], &[A1, B1, C1, B2, E], refused(10, 4)),
    ("no kg, no tip", &[(11, 0x8000_0000)], &[A1, B1, E, F2], lawful(14, 1, 1)),
    // a tip at load 0, and a rest, wherever they may stand
    ("tips at load 0", &[], &[A1, C1, B1, C1, C1, E, F2], lawful(28, 1, 1)),
    ("a rest behind A", &[], &[A1, D, B1, C1, E, F2], lawful(21, 1, 1)),
    ("a rest before E", &[], &[A1, B1, C1, D, E, F2], lawful(21, 1, 1)),
    ("a rest with load", &[], &[A1, B1, D, C1, E, F2], lawful(21, 1, 1)),
    // closings are inclusive
    ("stop 2 at 50, closing at 49", &[(12, 0x5000_0031)], &PLAN_M, refused(11, 4)),
    ("the last tip at 65, its closing", &[(7, 0x5000_0041)], &PLAN_M, lawful(35, 1, 2)),
    ("the last tip at 65, closing at 64", &[(7, 0x5000_0040)], &PLAN_M, refused(11, 5)),
    ("back at 80, its closing", &[(4, 0x5000_0050)], &PLAN_M, lawful(35, 1, 2)),
    ("back at 80, closing at 79", &[(4, 0x5000_004F)], &PLAN_M, refused(11, 6)),
    ("a rest at 30, R2", &[(5, 0x6000_001E)], &PLAN_M, lawful(35, 1, 2)),
    ("a rest at 30, R2 29", &[(5, 0x6000_001D)], &PLAN_M, refused(12, 3)),
    // openings are waited for
    ("stop 1 opens at 20", &[(9, 0x5001_4032)], &[A1, B1, C1, E, F2], lawful(21, 1, 1)),
    ("stop 1 opens at 41, back at 71", &[(9, 0x5002_9032)], &[A1, B1, C1, E, F2], refused(12, 3)),
    ("the tip opens at 70", &[(7, 0x5004_6064)], &[A1, B1, D, C1, E, F2], lawful(21, 1, 1)),
    ("the tip opens at 86, back at 101", &[(7, 0x5005_6064)], &[A1, B1, D, C1], refused(7, 4)),
    ("back at 101", &[(7, 0x5005_6064)], &[A1, B1, D, C1, E], refused(11, 4)),
    ("a rest waits for R1 40", &[(5, 0x6002_803C)], &[A1, D, B1], refused(11, 2)),
    // a vehicle leaves at E0 and does not rest before
    ("E0 20: stop 1 at 30", &[(4, 0x5001_4064), (9, 0x5000_001E)], &[A1, B1], refused(7, 2)),
    ("E0 20: stop 1 not at 29", &[(4, 0x5001_4064), (9, 0x5000_001D)], &[A1, B1], refused(11, 1)),
    ("E0 60: a rest at 60", &[(4, 0x5003_C064)], &[A1, D], refused(7, 2)),
    ("E0 61: a rest is late", &[(4, 0x5003_D064)], &[A1, D], refused(12, 1)),
    // only starts count
    ("the tip closes while tipping", &[(7, 0x5000_0019)], &[A1, B1, C1, E, F2], lawful(21, 1, 1)),
    ("240 minutes at stop 1", &[(10, 0x7000_00F0)], &[A1, B1], refused(7, 2)),
    ("240 minutes at stop 1, then", &[(10, 0x7000_00F0)], &[A1, B1, C1], refused(11, 2)),
    ("240 minutes of rest", &[(6, 0x7000_00F0)], &[A1, D], refused(7, 2)),
    ("240 minutes of rest, then", &[(6, 0x7000_00F0)], &[A1, D, B1], refused(11, 2)),
    // rests
    ("a second rest", &[], &[A1, D, D], refused(12, 2)),
    ("a second rest of no minutes", &[(6, 0x7000_0000)], &[A1, D, B1, D], refused(12, 3)),
    ("a rest on each vehicle", &[], &[A1, B1, D, C1, E, A2, D, B2, C1, E], lawful(42, 2, 2)),
    ("a late rest", &[(5, 0x6000_000E)], &[A1, B1, D], refused(12, 2)),
    ("a rest just in time", &[(5, 0x6000_000F)], &[A1, B1, D, C1, E, F2], lawful(21, 1, 1)),
    ("unrested and back at 70", &[], &[A1, B1, C1, B2, C1, E], refused(12, 5)),
    // several at one word: the lowest number
    ("B: 7 before 8", &[], &[A1, B1, C1, E, B1], refused(7, 4)),
    ("B: 8 before 9", &[], &[A1, B1, B1], refused(8, 2)),
    ("B: 8 before 11", &[(9, 0x5000_000A)], &[A1, B1, C1, B1], refused(8, 3)),
    ("B: 9 before 11", &[(12, 0x5000_0014)], &[A1, B1, B2], refused(9, 2)),
    ("E: 7 before 12", &[(5, 0x6000_0000)], &[A1, C1, E], refused(7, 2)),
    ("E: 10 before 11", &[(4, 0x5000_0018)], &[A1, B1, E], refused(10, 2)),
    ("E: 10 before 12", &[(5, 0x6000_0018)], &[A1, B1, E], refused(10, 2)),
    ("E: 11 before 12", &[(4, 0x5000_0027), (5, 0x6000_0014)], &[A1, B1, C1, E], refused(11, 3)),
    ("F: 7 before 8", &[], &[A1, B1, C1, E, F2, F1], refused(7, 5)),
    ("the end: 7 before 8", &[], &[A1, B2], refused(7, 2)),
    // several words: the first
    ("9 before a later 7", &[], &[A1, B1, B2, A1], refused(9, 2)),
    ("12 before a later 7", &[], &[A1, D, D, 0], refused(12, 2)),
    ("11 before a later 8", &[(9, 0x5000_0009)], &[A1, B1, B1], refused(11, 1)),
    ("10 before a missing stop", &[], &[A1, B1, E], refused(10, 2)),
    ("the first vehicle's 12", &[(5, 0x6000_0027)], &TWO_VEHICLES, refused(12, 3)),
];

/// Day M with the changes of a worked plan.
pub fn day_of(worked: &Worked) -> [u32; 31] {
    with_words(worked.1)
}

/// A day like day M, and a lawful plan of it of any length from 5 words on, as far as the limit of
/// 4,096 words goes. Behind stop 1 the tip is visited again and again, in no minutes.
pub fn long_plan(length: usize) -> (Day, Vec<u32>) {
    let mut day = day_m();
    day.tips[0].service = 0;
    let mut plan = vec![C1; length];
    plan[..2].copy_from_slice(&[A1, B1]);
    plan[length - 2..].copy_from_slice(&[E, F2]);
    (day, plan)
}

/// A day with one tip and no stop: day M's limits, windows and rest, its tip, and the legs between
/// the depot and the tip.
pub const NO_STOPS: [u32; 13] = {
    let [_, load, day_load, day_stops, depot, rest, rest_minutes, tip, service, ..] = DAY_M;
    let [from_depot, depot_to_tip] = [DAY_M[15], DAY_M[16]];
    let [tip_to_depot, from_tip] = [DAY_M[19], DAY_M[20]];
    [
        0x1000_0100, // one tip, no stop
        load,
        day_load,
        day_stops,
        depot,
        rest,
        rest_minutes,
        tip,
        service,
        from_depot, // to itself
        depot_to_tip,
        tip_to_depot,
        from_tip, // to itself
    ]
};

/// Plans of the day that has no stop: only the plan of no words is lawful.
pub const OF_NO_STOPS: &[(&[u32], Answer)] = &[
    (&[], lawful(0, 0, 0)),
    (&[A1], refused(7, 1)),
    (&[A1, E], refused(7, 1)),
    (&[A1, C1, D, E], refused(7, 3)),
    (&[A1, B1], refused(7, 1)),
    (&[F1], refused(7, 0)),
    (&[E], refused(7, 0)),
];
