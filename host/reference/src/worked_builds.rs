//! Greedy plans of day M, and of day M with some words changed, worked out by hand from
//! document 01, with the ties of document 02, Q-1.

use crate::worked::with_words;
use crate::worked_plans::{A1, A2, B1, B2, C1, D, E, F1, F2, PLAN_M};

/// What the day shows; the words of day M that are others, by their index; the greedy plan; its
/// distance and the stops left out.
pub type WorkedBuild = (&'static str, &'static [(usize, u32)], &'static [u32], (u64, u64));

/// A vehicle for each stop. Each is at leisure to rest behind its tip, at 30.
pub const ONE_EACH: [u32; 10] = [A1, B1, C1, D, E, A2, B2, C1, D, E];

/// The same with stop 2 first.
const ONE_EACH_2_FIRST: [u32; 10] = [A1, B2, C1, D, E, A2, B1, C1, D, E];

/// Both stops on one vehicle, stop 2 first.
pub const STOP_2_FIRST: [u32; 7] = [A1, B2, C1, D, B1, C1, E];

/// Both stops before the tip. The rest is due at 30, behind the second of them.
const BOTH_FIRST: [u32; 6] = [A1, B1, B2, D, C1, E];

/// The lettered cases as far as trials change nothing, the steps one by one, and the mistakes that
/// the rounds invite.
pub const BUILDS: &[WorkedBuild] = &[
    ("(a)", &[], &PLAN_M, (35, 0)),
    ("(c) stop 2 closes at 49", &[(12, 0x5000_0031)], &STOP_2_FIRST, (35, 0)),
    ("(d) 100 kg at stop 1", &[(11, 0x8000_0064)], &PLAN_M, (35, 0)),
    ("(e) 101 kg at stop 1", &[(11, 0x8000_0065)], &[A1, B2, C1, D, E, F1], (21, 1)),
    ("(f) back at 80, the depot's closing", &[(4, 0x5000_0050)], &PLAN_M, (35, 0)),
    ("(g) home with lunch is at 80, not by 79", &[(4, 0x5000_004F)], &ONE_EACH, (42, 0)),
    // least minutes, whichever closes first
    ("stop 2 is nearer", &[(18, 0x9009_0007)], &[A1, B2, C1, B1, D, C1, E], (35, 0)),
    (
        "stop 2 is nearer, stop 1 closes at 49",
        &[(18, 0x9009_0007), (9, 0x5000_0031)],
        &[A1, B2, C1, B1, D, C1, E],
        (35, 0),
    ),
    // rests
    ("a rest at the depot", &[(5, 0x6000_003C)], &[A1, D, B1, C1, B2, C1, E], (35, 0)),
    ("a rest of no minutes is written", &[(6, 0x7000_0000)], &PLAN_M, (35, 0)),
    (
        "a rest over before E0: none is back in time",
        &[(5, 0x6000_0000), (4, 0x5000_1064)],
        &[F1, F2],
        (0, 2),
    ),
    (
        "a fresh vehicle that takes none is not written, nor its rest",
        &[(5, 0x6000_003C), (9, 0x5000_0005), (12, 0x5000_0005)],
        &[F1, F2],
        (0, 2),
    ),
    // the tip is chosen for the minute behind the rest: 35, not 25
    (
        "a tip open at 35",
        &[(5, 0x6000_F03C), (7, 0x5000_0023)],
        &[A1, B1, D, C1, E, A2, B2, D, C1, E],
        (42, 0),
    ),
    ("a tip open to 34 only", &[(5, 0x6000_F03C), (7, 0x5000_0022)], &[F1, F2], (0, 2)),
    // near to capacity is more than four fifths, and farther is strictly more minutes
    (
        "80 kg of 100, stop 2 farther",
        &[(11, 0x8000_0050), (14, 0x8000_0014), (26, 0x900B_0007)],
        &BOTH_FIRST,
        (28, 0),
    ),
    (
        "81 kg of 100, stop 2 farther",
        &[(11, 0x8000_0051), (14, 0x8000_0013), (26, 0x900B_0007)],
        &PLAN_M,
        (35, 0),
    ),
    (
        "81 kg of 100, as far as the tip",
        &[(11, 0x8000_0051), (14, 0x8000_0013)],
        &BOTH_FIRST,
        (28, 0),
    ),
    // the day's kg stay at a tip
    ("110 kg a day of 110", &[(2, 0x3000_006E)], &PLAN_M, (35, 0)),
    ("110 kg a day of 109", &[(2, 0x3000_006D)], &ONE_EACH, (42, 0)),
    ("one stop a vehicle", &[(3, 0x4000_0001)], &ONE_EACH, (42, 0)),
    // no load, no tip
    (
        "nothing at either stop",
        &[(11, 0x8000_0000), (14, 0x8000_0000)],
        &[A1, B1, B2, D, E],
        (21, 0),
    ),
    // step 5: least opening, whichever closes first, and no rest while waiting
    (
        "stop 1 opens at 20, stop 2 at 15",
        &[(9, 0x5001_4032), (12, 0x5000_F032)],
        &ONE_EACH_2_FIRST,
        (42, 0),
    ),
    (
        "stop 1 opens at 20 and closes at 30, stop 2 opens at 15",
        &[(9, 0x5001_401E), (12, 0x5000_F032)],
        &ONE_EACH_2_FIRST,
        (42, 0),
    ),
    ("both open at 15", &[(9, 0x5000_F032), (12, 0x5000_F032)], &ONE_EACH, (42, 0)),
    (
        "both open at 15, stop 2 closes at 49",
        &[(9, 0x5000_F032), (12, 0x5000_F031)],
        &ONE_EACH_2_FIRST,
        (42, 0),
    ),
];

/// Day M with the changes of a worked build.
pub fn day_of_build(worked: &WorkedBuild) -> [u32; 31] {
    with_words(worked.1)
}
