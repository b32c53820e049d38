//! Plans made up at random: those that should be lawful are, and what the benchmark times answers
//! as the second implementation.

use reference::check::check;
use reference::day::Day;
use reference::drafts::{other_rounds, other_ways, random_draft};
use reference::limits::at_a_limit;
use reference::plain;
use reference::plan_damage::damage_plan;
use reference::random::Random;
use reference::rounds::same_rounds;
use reference::samples::random_size;
use reference::workdays::workday;

fn random_workday(random: &mut Random) -> Day {
    let (stops, tips) = random_size(random);
    workday(random, stops, tips)
}

#[test]
fn each_draft_is_a_lawful_plan() {
    let mut random = Random::new(11);
    let (mut several_vehicles, mut other) = (0, 0);
    for _ in 0..4_000 {
        let day = random_workday(&mut random);
        let draft = random_draft(&mut random, &day);
        let plan = draft.words(&day);
        let totals = check(&day, &plan).expect("a draft is lawful");
        several_vehicles += u32::from(totals.vehicles > 1);
        let same = other_ways(&mut random, &day, &draft).words(&day);
        assert_eq!(same_rounds(&day, &plan, &same), Ok(true));
        let changed = other_rounds(&mut random, &day, &draft);
        let is_same = same_rounds(&day, &plan, &changed.words(&day)).expect("both are lawful");
        assert_eq!(is_same, changed == draft);
        other += u32::from(!is_same);
    }
    assert!(several_vehicles > 1_000, "{several_vehicles} with several vehicles");
    assert!(other > 2_000, "{other} with other rounds");
}

#[test]
fn a_limit_is_where_a_lawful_plan_ends_to_be_lawful() {
    let mut random = Random::new(12);
    let mut refused = [0; 16];
    for _ in 0..4_000 {
        let day = random_workday(&mut random);
        let plan = random_draft(&mut random, &day).words(&day);
        if let Err(refusal) = check(&at_a_limit(&mut random, &day, &plan), &plan) {
            refused[refusal.number as usize] += 1;
        }
    }
    assert_eq!(refused[..9], [0; 9], "the plan itself stays as it was");
    for number in [9, 11, 12] {
        assert!(refused[number] > 100, "refusal {number}: {} times", refused[number]);
    }
}

/// What the benchmark times has to be the same check.
#[test]
fn plain_rust_answers_as_the_second_implementation() {
    let mut random = Random::new(13);
    for _ in 0..3_000 {
        let day = random_workday(&mut random);
        let lawful = random_draft(&mut random, &day).words(&day);
        let day = at_a_limit(&mut random, &day, &lawful);
        let words = day.words();
        assert_eq!(plain::check(&words, &lawful), check(&day, &lawful));
        for _ in 0..8 {
            let mut plan = lawful.clone();
            damage_plan(&mut random, &day, &mut plan);
            assert_eq!(plain::check_accepted(&words, &plan), check(&day, &plan), "{plan:X?}");
        }
    }
}
