//! Planning with trials: the greedy plan, then its trial list, which starts anew from each plan
//! that is kept; with growing neighbour sets one list after the other. Each trial's plan is put
//! together whole and checked afresh.

use crate::build::{build, Built};
use crate::check::check;
use crate::day::Day;
use crate::drafts::Draft;
use crate::trials::{neighbours, trial_list, tried, Trial};
use crate::Refusal;

/// What planning comes to.
#[derive(Clone, Debug, PartialEq, Eq)]
pub struct Planned {
    /// The words of the plan.
    pub words: Vec<u32>,
    /// The sum over the legs driven.
    pub distance: u64,
    /// The trials made.
    pub trials: u64,
    /// Whether the whole list of the plan was made, or each of its lists, and none kept.
    pub settled: bool,
    /// The stops left out, F words.
    pub left_out: u64,
}

/// "K over 5, 10, 25, 50."
const GROWING: [u64; 4] = [5, 10, 25, 50];

/// Plans an accepted day with the K nearest neighbours and a budget of trials, in a plan buffer and
/// a working buffer of so much room; or refuses by 13 or 14.
pub fn plan(
    day: &Day,
    k: u64,
    budget: u64,
    room: usize,
    work_room: usize,
) -> Result<Planned, Refusal> {
    if !(1..=50).contains(&k) {
        return Err(Refusal { number: 13, place: k });
    }
    Ok(improved(day, &[k], budget, greedy(day, room, work_room)?))
}

/// The same with growing neighbour sets; or refuses by 14.
pub fn plan_growing(
    day: &Day,
    budget: u64,
    room: usize,
    work_room: usize,
) -> Result<Planned, Refusal> {
    Ok(improved(day, &GROWING, budget, greedy(day, room, work_room)?))
}

/// The plan before the first trial.
fn greedy(day: &Day, room: usize, work_room: usize) -> Result<Planned, Refusal> {
    let Built { words, distance, left_out } = build(day, room)?;
    let needed = 5 * day.stops.len();
    if work_room < needed {
        return Err(Refusal { number: 14, place: needed as u64 });
    }
    Ok(Planned { words, distance, trials: 0, settled: false, left_out })
}

/// Makes the list of a plan for each K in turn, until all of them are at their end or the budget is
/// used up. A trial that is kept returns to the first K.
fn improved(day: &Day, each_k: &[u64], budget: u64, mut planned: Planned) -> Planned {
    'plans: loop {
        let plan = Draft::of(day, &planned.words);
        for k in each_k {
            for trial in trial_list(day, &neighbours(day, *k as usize), &plan) {
                if planned.trials == budget {
                    return planned;
                }
                planned.trials += 1;
                if let Some((words, distance)) = kept(day, &plan, trial, planned.distance) {
                    planned = Planned { words, distance, ..planned };
                    continue 'plans;
                }
            }
        }
        return Planned { settled: true, ..planned };
    }
}

/// The words and the distance of the plan after a trial, "if the plan is then lawful and its
/// distance lower".
pub fn kept(day: &Day, plan: &Draft, trial: Trial, distance: u64) -> Option<(Vec<u32>, u64)> {
    let words = tried(day, plan, trial)?.words(day);
    let totals = check(day, &words).ok()?;
    (totals.distance < distance).then_some((words, totals.distance))
}
