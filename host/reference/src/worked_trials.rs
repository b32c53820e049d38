//! The lettered cases of document 01 that speak of planning with trials, as it gives them, (c) as
//! document 02, Q-1, does: day M with some words changed, K 5. Behind them what growing neighbour
//! sets come to on some of these days, worked out by hand.

use crate::sets::Sets;
use crate::worked::with_words;
use crate::worked_builds::{ONE_EACH, STOP_2_FIRST};
use crate::worked_plans::{A1, B2, C1, D, E, F1, PLAN_M};

/// K in each of the lettered cases.
pub const K: u64 = 5;

/// The case; the words of day M that are others, by their index; the budget; the plan's words, its
/// distance and the stops left out; trials made and whether settled, where document 01 gives them.
pub type WorkedTrials =
    (&'static str, &'static [(usize, u32)], u64, (&'static [u32], u64, u64), Option<(u64, bool)>);

/// Case (j) has a day of its own, and (h) and (i) are plans to check.
pub const PLANS: &[WorkedTrials] = &[
    ("(a)", &[], 6, (&PLAN_M, 35, 0), Some((6, true))),
    ("(b) budget 5", &[], 5, (&PLAN_M, 35, 0), Some((5, false))),
    ("(c) stop 2 closes at 49", &[(12, 0x5000_0031)], 6, (&STOP_2_FIRST, 35, 0), None),
    ("(d) 100 kg at stop 1", &[(11, 0x8000_0064)], 6, (&PLAN_M, 35, 0), Some((6, true))),
    ("(e) 101 kg at stop 1", &[(11, 0x8000_0065)], 6, (&[A1, B2, C1, D, E, F1], 21, 1), None),
    ("(f) L0 = 80", &[(4, 0x5000_0050)], 6, (&PLAN_M, 35, 0), Some((6, true))),
    ("(g) L0 = 79", &[(4, 0x5000_004F)], 6, (&ONE_EACH, 42, 0), None),
];

/// Growing neighbour sets on days of the cases. Two stops have the same list for each K, and none of
/// its trials is kept, so that it is made four times.
pub const GROWING_PLANS: &[WorkedTrials] = &[
    ("day M", &[], 24, (&PLAN_M, 35, 0), Some((24, true))),
    ("day M, one trial fewer", &[], 23, (&PLAN_M, 35, 0), Some((23, false))),
    ("day M, no list for K 50", &[], 18, (&PLAN_M, 35, 0), Some((18, false))),
    ("day M, one list", &[], 6, (&PLAN_M, 35, 0), Some((6, false))),
    (
        "101 kg at stop 1",
        &[(11, 0x8000_0065)],
        5,
        (&[A1, B2, C1, D, E, F1], 21, 1),
        Some((4, true)),
    ),
    ("L0 = 79", &[(4, 0x5000_004F)], 16, (&ONE_EACH, 42, 0), Some((16, true))),
    ("L0 = 79, one trial fewer", &[(4, 0x5000_004F)], 15, (&ONE_EACH, 42, 0), Some((15, false))),
];

/// Each case, with the neighbours that its trials are made with.
pub fn each_case() -> impl Iterator<Item = (Sets, &'static WorkedTrials)> {
    let nearest = PLANS.iter().map(|worked| (Sets::Nearest(K), worked));
    nearest.chain(GROWING_PLANS.iter().map(|worked| (Sets::Growing, worked)))
}

/// Day M with the changes of a case.
pub fn day_of_trials(worked: &WorkedTrials) -> [u32; 31] {
    with_words(worked.1)
}
