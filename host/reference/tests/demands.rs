//! What is owed of every plan with trials, on days that are small enough to make the trials to
//! their end.

use std::collections::BTreeMap;

use reference::build::{build, Built};
use reference::build_days::build_day;
use reference::check::check;
use reference::day::Day;
use reference::drafts::Draft;
use reference::planning::{kept, Planned};
use reference::random::Random;
use reference::sets::Sets;
use reference::trials::{neighbours, trial_list, tried, Trial};
use reference::workdays::usual_day;

fn small_day(random: &mut Random) -> Day {
    let most_tips = random.one_of(&[1, 3, 6]);
    let (stops, tips) = (random.below(9), 1 + random.below(most_tips));
    build_day(random, stops, tips)
}

/// Some K, or growing neighbour sets.
fn some_sets(random: &mut Random) -> Sets {
    if random.once_in(2) {
        Sets::Growing
    } else {
        Sets::Nearest(random.one_of(&[1, 2, 3, 5, 50]))
    }
}

/// A day, the neighbours to plan it with and the greedy plan.
fn random_case(random: &mut Random) -> (Day, Sets, Built) {
    let day = small_day(random);
    let greedy = build(&day, 5 * day.stops.len()).expect("the room is enough");
    (day, some_sets(random), greedy)
}

fn planned(day: &Day, sets: Sets, budget: u64) -> Planned {
    let needed = 5 * day.stops.len();
    sets.plan(day, budget, needed, needed).expect("K is within 1..50 and the room is enough")
}

fn trials_of(day: &Day, k: u64, plan: &Draft) -> Vec<Trial> {
    trial_list(day, &neighbours(day, k as usize), plan).collect()
}

/// The lists of a plan for each K, as they are made.
fn lists_of(day: &Day, sets: Sets, plan: &Draft) -> Vec<Vec<Trial>> {
    sets.each_k().into_iter().map(|k| trials_of(day, k, plan)).collect()
}

fn stops_left_out(words: &[u32]) -> Vec<u32> {
    words.iter().copied().filter(|word| word >> 28 == 0xF).collect()
}

/// Budgets, rising: none, some below what settles, those about it, and no end.
fn budgets(random: &mut Random, settles_at: u64) -> Vec<u64> {
    let mut budgets: Vec<u64> =
        (0..4).map(|_| random.below(settles_at as usize + 1) as u64).collect();
    budgets.extend([0, 1, settles_at.saturating_sub(1), settles_at, settles_at + 1, u64::MAX]);
    budgets.sort_unstable();
    budgets
}

/// Settled exactly when each list was made to its end and none kept; else as many trials as the
/// budget has. A plan is lawful, with the distance and the stops left out that the answer says, and never
/// longer than the greedy plan or that of a smaller budget.
#[test]
fn each_plan_is_lawful_and_settled_or_out_of_budget() {
    let mut random = Random::new(61);
    let mut shorter = 0;
    for _ in 0..700 {
        let (day, sets, greedy) = random_case(&mut random);
        let end = planned(&day, sets, u64::MAX);
        let mut longest = greedy.distance;
        for budget in budgets(&mut random, end.trials) {
            let planned = planned(&day, sets, budget);
            let totals = check(&day, &planned.words).expect("a plan is lawful");
            assert_eq!(totals.distance, planned.distance);
            assert!(planned.distance <= longest);
            longest = planned.distance;
            assert_eq!(stops_left_out(&planned.words), stops_left_out(&greedy.words));
            assert_eq!(stops_left_out(&planned.words).len() as u64, planned.left_out);
            assert!(planned.words.len() <= 5 * day.stops.len());
            assert_eq!(planned.settled, budget >= end.trials, "{budget} of {day:?}");
            assert_eq!(planned.trials, budget.min(end.trials));
        }
        shorter += u32::from(end.distance < greedy.distance);
    }
    assert!(shorter > 200, "{shorter} shorter than the greedy plan");
}

#[test]
fn planning_settles_within_the_bound_and_then_no_trial_is_left() {
    let mut random = Random::new(62);
    let mut lowered = 0;
    for _ in 0..1_000 {
        let (day, sets, greedy) = random_case(&mut random);
        lowered += u32::from(is_lowered_and_settles(&day, sets, &greedy));
    }
    assert!(lowered > 300, "{lowered} with a trial kept");
}

/// Of 28 stops each has others for its neighbours with each of the four K.
#[test]
fn each_of_the_growing_neighbour_sets_is_settled() {
    let mut random = Random::new(66);
    for _ in 0..2 {
        let day = usual_day(&mut random, 28, 2);
        let greedy = build(&day, 5 * 28).expect("the room is enough");
        let lists = lists_of(&day, Sets::Growing, &Draft::of(&day, &greedy.words));
        assert!(lists.windows(2).all(|pair| pair[0].len() < pair[1].len()));
        assert!(is_lowered_and_settles(&day, Sets::Growing, &greedy));
    }
}

/// "D" is the distance of the greedy plan: each plan that is kept is shorter by at least 1, and its
/// lists for 5, 10, 25 and 50 have no more than n x (180 + 4d) trials together. Behind the last plan
/// that is kept each of its lists is made. Says whether one was kept.
fn is_lowered_and_settles(day: &Day, sets: Sets, greedy: &Built) -> bool {
    let (stops, tips) = (day.stops.len() as u64, day.tips.len() as u64);
    let all_lists = match sets {
        Sets::Nearest(k) => stops * (2 * k + tips),
        Sets::Growing => stops * (180 + 4 * tips),
    };
    let bound = (greedy.distance + 1) * all_lists;
    let end = planned(day, sets, bound);
    assert!(end.settled && end.trials <= bound, "{} of {bound}", end.trials);
    assert_eq!(planned(day, sets, u64::MAX), end);
    let plan = Draft::of(day, &end.words);
    let lists = lists_of(day, sets, &plan);
    for list in &lists {
        assert!(list.iter().all(|trial| kept(day, &plan, *trial, end.distance).is_none()));
    }
    let made = lists.iter().map(Vec::len).sum::<usize>() as u64;
    assert!(made <= all_lists);
    let before = end.trials - made;
    assert_eq!(planned(day, sets, before).words, end.words);
    assert!(before == 0 || planned(day, sets, before - 1).distance > end.distance);
    before > 0
}

/// A larger budget never gives a longer plan, and each plan that comes is one trial away from the
/// one before it.
#[test]
fn a_larger_budget_never_gives_a_longer_plan() {
    let mut random = Random::new(63);
    let mut steps = 0;
    for _ in 0..60 {
        let (day, sets, greedy) = random_case(&mut random);
        let mut last = planned(&day, sets, 0);
        assert_eq!((&last.words, last.distance), (&greedy.words, greedy.distance));
        for budget in 1..=planned(&day, sets, u64::MAX).trials {
            let next = planned(&day, sets, budget);
            assert!(next.distance < last.distance || next.words == last.words);
            if next.words != last.words {
                let plan = Draft::of(&day, &last.words);
                let mut list = lists_of(&day, sets, &plan).into_iter().flatten();
                let first = list.find_map(|trial| kept(&day, &plan, trial, last.distance));
                assert_eq!(first, Some((next.words.clone(), next.distance)));
                steps += 1;
            }
            last = next;
        }
    }
    assert!(steps > 60, "{steps} plans kept");
}

/// A vehicle that was planned and is walked again is itself.
#[test]
fn a_tip_replaced_by_itself_changes_nothing() {
    let mut random = Random::new(64);
    let mut walked = 0;
    for _ in 0..1_000 {
        let day = small_day(&mut random);
        let budget = random.one_of(&[0, 5, u64::MAX]);
        let sets = some_sets(&mut random);
        let plan = Draft::of(&day, &planned(&day, sets, budget).words);
        for trial in trials_of(&day, 1, &plan) {
            let Trial::Removed(vehicle, place) = trial else { continue };
            let there = plan.tip(vehicle, place).expect("a tip is removed");
            assert_eq!(
                tried(&day, &plan, Trial::Replaced(vehicle, place, there)).as_ref(),
                Some(&plan)
            );
            walked += 1;
        }
    }
    assert!(walked > 1_000, "{walked} vehicles walked again");
}

/// The days that are planned here give each kind of trial each outcome, so that none is passed over.
/// A tip replaced leaves the loads as they are, so that no tip is inserted and the trial cannot fail.
#[test]
fn each_kind_of_trial_is_met_with_each_outcome() {
    let mut random = Random::new(65);
    let mut met: BTreeMap<(&str, &str), u32> = BTreeMap::new();
    for _ in 0..3_000 {
        let day = small_day(&mut random);
        let greedy = planned(&day, Sets::Nearest(5), 0);
        let plan = Draft::of(&day, &greedy.words);
        for trial in trials_of(&day, 5, &plan) {
            let outcome = outcome(&day, &plan, trial, greedy.distance);
            *met.entry((kind(trial), outcome)).or_default() += 1;
        }
    }
    println!("{met:?}");
    for kind in ["before", "after", "interchanged", "removed", "replaced"] {
        for outcome in ["fails", "not lawful", "not shorter", "kept"] {
            let times = met.get(&(kind, outcome)).copied().unwrap_or(0);
            let cannot_be = (kind, outcome) == ("replaced", "fails");
            assert!(if cannot_be { times == 0 } else { times >= 10 }, "{kind} {outcome}: {times}");
        }
    }
}

fn kind(trial: Trial) -> &'static str {
    match trial {
        Trial::Before(..) => "before",
        Trial::After(..) => "after",
        Trial::Interchanged(..) => "interchanged",
        Trial::Removed(..) => "removed",
        Trial::Replaced(..) => "replaced",
    }
}

fn outcome(day: &Day, plan: &Draft, trial: Trial, distance: u64) -> &'static str {
    let Some(candidate) = tried(day, plan, trial) else { return "fails" };
    match check(day, &candidate.words(day)) {
        Err(_) => "not lawful",
        Ok(totals) if totals.distance < distance => "kept",
        Ok(_) => "not shorter",
    }
}
