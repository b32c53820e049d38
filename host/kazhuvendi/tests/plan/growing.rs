//! Growing neighbour sets: budgets about the end of each list, lists that are empty, and days on
//! which the list of each of the four K is come to.

use kazhuvendi::{plan_growing, Planned};
use reference::build_days::build_day;
use reference::day::{Day, Leg, Stop, Window};
use reference::drafts::Draft;
use reference::planning::{self, kept};
use reference::random::Random;
use reference::samples::day_m;
use reference::sets::Sets;
use reference::trials::{neighbours, trial_list};

use crate::compare::Tally;
use crate::trials::{plan_alike, round_with};
use crate::{assert_rounds, setting};

/// K of the lists of a plan, in their order.
const EACH_K: [u64; 4] = [5, 10, 25, 50];

/// The library's answer with all the room that is needed, which is compared.
fn planned(day: &Day, budget: u64, random: &mut Random, tally: &mut Tally) -> Planned {
    let (words, by) = (day.words(), setting(Sets::Growing, budget, day.stops.len()));
    plan_alike(&words, by, random, tally);
    let (mut plan, mut work) = (vec![0; by.room], vec![0; by.work_room]);
    plan_growing(&words, budget, &mut plan, &mut work).expect("the day is planned")
}

/// Each list that is made to its end, in order: its K, and the trials made until then.
fn list_ends(day: &Day) -> Vec<(u64, u64)> {
    let needed = 5 * day.stops.len();
    let greedy = planning::plan_growing(day, 0, needed, needed).expect("the room is enough");
    let (mut words, mut distance) = (greedy.words, greedy.distance);
    let (mut ends, mut made) = (Vec::new(), 0);
    'plans: loop {
        let plan = Draft::of(day, &words);
        for k in EACH_K {
            for trial in trial_list(day, &neighbours(day, k as usize), &plan) {
                made += 1;
                if let Some(shorter) = kept(day, &plan, trial, distance) {
                    (words, distance) = shorter;
                    continue 'plans;
                }
            }
            ends.push((k, made));
        }
        return ends;
    }
}

/// On the smaller day a trial is kept for 5 and for 10; on the larger one, where each stop has more
/// than 25 neighbours, for 5, 10, 25 and 50. Then the list for that K is not made to its end as
/// often as the one before it.
#[test]
fn a_budget_gone_at_the_end_of_a_list_settles_only_at_the_last() {
    for (seed, stops, fewer) in [(193, 12, [true, true, false]), (28, 28, [true; 3])] {
        let mut random = Random::new(seed);
        let mut tally = Tally::default();
        let day = build_day(&mut random, stops, 3);
        let ends = list_ends(&day);
        let times = EACH_K.map(|k| ends.iter().filter(|end| end.0 == k).count());
        assert_eq!([0, 1, 2].map(|list| times[list + 1] < times[list]), fewer, "{times:?}");
        assert_eq!(times[3], 1);
        let settles_at = ends[ends.len() - 1].1;
        for (k, end) in ends {
            for budget in [end - 1, end, end + 1] {
                let planned = planned(&day, budget, &mut random, &mut tally);
                assert_eq!(planned.settled, budget >= settles_at, "K {k}, {end} trials");
                assert_eq!(planned.trials, budget.min(settles_at), "K {k}, {end} trials");
            }
        }
        println!("lists made to their end: {times:?}; {tally}");
    }
}

/// Two stops that have nothing to collect, and so many others that are above Q and are left out. The
/// others are nearer to each of the two. The vehicle tips nowhere, so that there are no trials of
/// tips. Driving to stop 2 first is shorter, or just as long.
fn two_far_apart(others: usize, shorter: bool) -> Day {
    let mut day = day_m();
    let any_time = Window { opening: 0, closing: 1_440 };
    let stop = |quantity| Stop { window: any_time, service: 0, quantity };
    day.stops = vec![stop(0), stop(0)];
    day.stops.resize(2 + others, stop(101));
    let places = 1 + day.tips.len() + day.stops.len();
    day.legs = vec![vec![Leg { minutes: 1, distance: 7 }; places]; places];
    (0..places).for_each(|place| day.legs[place][place] = Leg::NONE);
    day.legs[2][3].minutes = 2;
    day.legs[3][2] = Leg { minutes: 2, distance: if shorter { 6 } else { 7 } };
    day
}

/// The two stops have four trials for each K of which they are neighbours. A list is empty only where
/// those before it are: the neighbours for a K are among those for the next. And it is so for each
/// plan of the day, because the same stops are left out, and some vehicle tips where there is something
/// to collect. So all lists behind one are empty only where no list has a trial, or behind the last.
#[test]
fn lists_that_are_empty_are_passed_over() {
    let mut random = Random::new(74);
    let mut tally = Tally::default();
    for (others, lists) in
        [(0, 4), (4, 4), (5, 3), (9, 3), (10, 2), (24, 2), (25, 1), (49, 1), (50, 0), (238, 0)]
    {
        for shorter in [false, true] {
            let day = two_far_apart(others, shorter);
            let settles_at = if shorter && lists > 0 { 1 + 4 * lists } else { 4 * lists };
            for budget in 0..=settles_at + 1 {
                let planned = planned(&day, budget, &mut random, &mut tally);
                let distance = if shorter && budget > 0 && lists > 0 { 20 } else { 21 };
                assert_eq!(planned.settled, budget >= settles_at, "{others} others, {budget}");
                assert_eq!(planned.trials, budget.min(settles_at), "{others} others, {budget}");
                assert_eq!((planned.distance, planned.left_out), (distance, others));
                assert_eq!(planned.words, 4 + others);
            }
        }
    }
    println!("{tally}");
}

/// A day on which each stop has more than 5 neighbours.
#[test]
fn each_budget_up_to_the_end_is_planned_as_the_reference_plans_it() {
    let mut random = Random::new(75);
    let mut tally = Tally::default();
    let day = loop {
        let day = build_day(&mut random, 8, 3);
        let least = neighbours(&day, 10).iter().map(Vec::len).min();
        let settles_at = list_ends(&day).last().map_or(0, |end| end.1);
        if least > Some(5) && (500..900).contains(&settles_at) {
            break day;
        }
    };
    let settles_at = list_ends(&day).last().map_or(0, |end| end.1);
    for budget in 0..=settles_at + 2 {
        let planned = planned(&day, budget, &mut random, &mut tally);
        assert_eq!(planned.settled, budget >= settles_at);
    }
    println!("{tally}");
    assert!(tally.met["shorter than the greedy plan"] >= 400);
}

/// Days with other neighbours for each of the four K, and budgets up to the end. Those of the random
/// days of this size mostly end within the first list.
#[test]
fn days_of_27_stops_or_more_are_planned_as_the_reference_plans_them() {
    let mut random = Random::new(76);
    let mut tally = Tally::default();
    while tally.met.get("plans written") < Some(&30) {
        let stops = 27 + random.below(40);
        let tips = 1 + random.below(3);
        let day = build_day(&mut random, stops, tips);
        let (mut plan, mut work) = (vec![0; 5 * stops], vec![0; 5 * stops]);
        let end = plan_growing(&day.words(), u64::MAX, &mut plan, &mut work);
        let end = end.expect("the day is planned").trials;
        if (1_000..7_000).contains(&end) {
            for budget in [random.below(end as usize) as u64, end - 1, u64::MAX] {
                planned(&day, budget, &mut random, &mut tally);
            }
        }
    }
    println!("{tally}");
    assert_eq!((tally.met["settled"], tally.met["not settled"]), (10, 20));
}

#[test]
fn random_and_damaged_days_are_planned_as_the_reference_plans_them() {
    let mut tally = Tally::default();
    for seed in 340..343 {
        let mut random = Random::new(seed);
        for _ in 0..1_000 {
            round_with(Sets::Growing, &mut random, &mut tally);
        }
    }
    println!("{tally}");
    assert_rounds(&tally, 3_000);
    assert_eq!(tally.refused[13], 0);
}
