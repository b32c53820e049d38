//! The days that planning with trials is timed on, of few long rounds and of many short ones, and the
//! library's call for each of the neighbour sets.

use kazhuvendi::{Planned, Refusal};
use reference::random::Random;
use reference::sets::Sets;
use reference::trial_days::{day_of_few_long_rounds, day_of_many_short_rounds};

const TIPS: usize = 15;

pub struct Day {
    pub name: String,
    pub words: Vec<u32>,
}

pub fn each_day() -> Vec<Day> {
    let of_size = |stops: usize| {
        let long = day_of_few_long_rounds(&mut Random::new(1), stops, TIPS);
        let short = day_of_many_short_rounds(&mut Random::new(1), stops, TIPS);
        [(long, "few long rounds"), (short, "many short rounds")].map(|(day, rounds)| Day {
            name: format!("{stops} stops, {rounds}"),
            words: day.words(),
        })
    };
    [60, 240].into_iter().flat_map(of_size).collect()
}

pub fn name(sets: Sets) -> String {
    match sets {
        Sets::Nearest(k) => format!("K {k}"),
        Sets::Growing => "growing".to_owned(),
    }
}

/// A buffer as long as planning this day needs.
pub fn room(day: &[u32]) -> Vec<u32> {
    let stops = kazhuvendi::judge(day).expect("the day is accepted").stops;
    vec![0; 5 * stops]
}

pub fn plan_with(
    sets: Sets,
    day: &[u32],
    budget: u64,
    plan: &mut [u32],
    work: &mut [u32],
) -> Result<Planned, Refusal> {
    match sets {
        Sets::Nearest(k) => kazhuvendi::plan(day, k, budget, plan, work),
        Sets::Growing => kazhuvendi::plan_growing(day, budget, plan, work),
    }
}
