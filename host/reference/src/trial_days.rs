//! Days and settings to plan with trials, and the days of the benchmark.

use crate::build_days::build_day;
use crate::damage::file_of;
use crate::day::{self, Day};
use crate::lent::random_room;
use crate::random::Random;
use crate::sets::Sets;
use crate::workdays::usual_day;

/// What planning is asked for beside the day.
#[derive(Clone, Copy, Debug)]
pub struct Setting {
    /// The neighbours that the trials are made with.
    pub sets: Sets,
    /// The trials that may be made.
    pub budget: u64,
    /// The words of the plan buffer.
    pub room: usize,
    /// The words of the working buffer.
    pub work_room: usize,
}

/// As many trials as the second implementation has time for.
const MOST_TRIALS: u64 = 1_500;

/// The words of a day, of which one in twenty is damaged.
pub fn random_trial_file(random: &mut Random) -> Vec<u32> {
    let day = random_trial_day(random);
    file_of(random, &day)
}

/// A day of any size. Most are small, so that the trials come to an end soon.
pub fn random_trial_day(random: &mut Random) -> Day {
    let most_stops = match random.below(60) {
        0 => 240,
        1..=5 => 30,
        _ => 8,
    };
    let most_tips = random.one_of(&[1, 3, 15]);
    let (stops, tips) = (random.below(most_stops + 1), 1 + random.below(most_tips));
    build_day(random, stops, tips)
}

/// Growing neighbour sets, or the K nearest.
pub fn random_sets(random: &mut Random) -> Sets {
    if random.once_in(3) {
        Sets::Growing
    } else {
        Sets::Nearest(random_neighbours(random))
    }
}

/// A setting with these neighbours for a day, accepted or not. Many budgets are about as many trials
/// as there are to the end; of some the low bits would end them at once.
pub fn random_setting(random: &mut Random, words: &[u32], sets: Sets) -> Setting {
    let needed = 5 * day::read(words).map_or(0, |day| day.stops.len());
    let to_the_end = trials_to_the_end(words, sets, needed);
    let budget = match random.below(8) {
        0 => random.below(2) as u64,
        _ if to_the_end > MOST_TRIALS => random.below(200) as u64,
        1 => random.below(to_the_end as usize + 1) as u64,
        2 => to_the_end.saturating_sub(1),
        3 => to_the_end,
        4 => to_the_end + 1,
        5 => (1 << 32) + random.below(2) as u64,
        _ => u64::MAX,
    };
    let (room, work_room) = match random.below(6) {
        0 => (random_room(random, needed), needed),
        1 => (needed, random_room(random, needed)),
        2 => (random_room(random, needed), random_room(random, needed)),
        _ => (needed, needed),
    };
    Setting { sets, budget, room, work_room }
}

/// Most are within 1..50. Some others have the low bits of one that is.
fn random_neighbours(random: &mut Random) -> u64 {
    match random.below(12) {
        0 => random.one_of(&[0, 51, 256, 1 << 32 | 5, u64::MAX]),
        1 | 2 => 1,
        3 | 4 => 5,
        5 | 6 => 50,
        _ => u64::from(random.within(1..=50)),
    }
}

/// How many trials are made where the budget does not end them, or one more than there is time for;
/// none where planning is refused.
fn trials_to_the_end(words: &[u32], sets: Sets, needed: usize) -> u64 {
    let (mut plan, mut work) = (vec![0; needed], vec![0; needed]);
    let planned = sets.plan_plainly(words, MOST_TRIALS + 1, &mut plan, &mut work);
    planned.map_or(0, |planned| planned.trials)
}

/// A usual day whose vehicles serve a quarter of the stops each.
pub fn day_of_few_long_rounds(random: &mut Random, stops: usize, tips: usize) -> Day {
    day_of_rounds(random, stops, tips, stops.div_ceil(4))
}

/// A usual day whose vehicles serve five stops each.
pub fn day_of_many_short_rounds(random: &mut Random, stops: usize, tips: usize) -> Day {
    day_of_rounds(random, stops, tips, 5)
}

fn day_of_rounds(random: &mut Random, stops: usize, tips: usize, a_round: usize) -> Day {
    let mut day = usual_day(random, stops, tips);
    day.limits.day_stops = a_round as u32;
    day.limits.day_load = 1_000_000;
    day
}
