//! Planning with trials: the library's plans beside those of the second implementation and those
//! that document 01 gives.

mod compare;
#[path = "plan/growing.rs"]
mod growing;
#[path = "compare/trials.rs"]
mod trials;
#[path = "compare/written.rs"]
mod written;

use compare::Tally;
use kazhuvendi::{build, Planned, Refusal};
use reference::build_days::build_day;
use reference::day::Day;
use reference::planning;
use reference::random::Random;
use reference::sets::Sets;
use reference::trial_days::{day_of_few_long_rounds, day_of_many_short_rounds, Setting};
use reference::worked::{changed, CHANGES, DAY_M};
use reference::worked_plans::NO_STOPS;
use reference::worked_trials::{day_of_trials, each_case, K};
use trials::{plan_alike, plan_with, round};

/// What stands in the buffers before.
const BEFORE: u32 = 0x5555_5555;

/// Each call of planning with trials.
const BOTH: [Sets; 2] = [Sets::Nearest(K), Sets::Growing];

/// All the room that a day of so many stops needs.
fn setting(sets: Sets, budget: u64, stops: usize) -> Setting {
    Setting { sets, budget, room: 5 * stops, work_room: 5 * stops }
}

/// The refusal that a call gives, which may change neither buffer.
fn refused(words: &[u32], by: Setting) -> Option<Refusal> {
    let (mut plan, mut work) = (vec![BEFORE; by.room], vec![BEFORE; by.work_room]);
    let refusal = plan_with(by.sets, words, by.budget, &mut plan, &mut work).err();
    if refusal.is_some() {
        assert!(plan.iter().chain(&work).all(|word| *word == BEFORE), "{by:?}");
    }
    refusal
}

/// The lettered cases, as document 01 gives them, and those of growing neighbour sets.
#[test]
fn each_worked_case_is_planned_so() {
    for (sets, worked) in each_case() {
        let (shows, _, budget, (words, distance, left_out), counted) = *worked;
        let (mut written, mut work) = ([BEFORE; 13], [BEFORE; 10]);
        let answer = plan_with(sets, &day_of_trials(worked), budget, &mut written, &mut work);
        let answer = answer.expect("the day is planned");
        assert_eq!((answer.distance, answer.left_out as u64), (distance, left_out), "{shows}");
        if let Some(counted) = counted {
            assert_eq!((answer.trials, answer.settled), counted, "{shows}");
        }
        assert_eq!(&written[..answer.words], words, "{shows}");
        assert!(written[answer.words..10].iter().all(|word| *word == 0), "{shows}");
        assert_eq!(written[10..], [BEFORE; 3], "{shows}");
    }
}

/// Case (j).
#[test]
fn a_day_with_no_stops_needs_no_room_and_no_budget() {
    let nothing = Planned { distance: 0, trials: 0, settled: true, left_out: 0, words: 0 };
    for sets in BOTH {
        assert_eq!(plan_with(sets, &NO_STOPS, 0, &mut [], &mut []), Ok(nothing));
        let mut written = [BEFORE; 4];
        let answer = plan_with(sets, &NO_STOPS, u64::MAX, &mut written, &mut [0; 4]);
        assert_eq!((answer, written), (Ok(nothing), [BEFORE; 4]));
    }
}

#[test]
fn k_is_within_1_to_50_whatever_the_room() {
    for k in [0, 51, 52, 255, 256, 257, 1 << 32, 1 << 32 | 5, 1 << 63, u64::MAX] {
        for room in [0, 9, 10, 11] {
            let by = Setting { sets: Sets::Nearest(k), budget: 6, room, work_room: 21 - room };
            let refusal = Refusal { number: 13, place: k };
            assert_eq!(refused(&DAY_M, by), Some(refusal), "{by:?}");
            assert_eq!(refused(&NO_STOPS, by), Some(refusal), "{by:?}");
        }
    }
    for k in 1..=50 {
        assert_eq!(refused(&DAY_M, setting(Sets::Nearest(k), 6, 2)), None, "K {k}");
    }
}

#[test]
fn five_words_are_needed_for_each_stop_in_both_buffers() {
    let refusal = Some(Refusal { number: 14, place: 10 });
    for room in 0..20 {
        for work_room in 0..20 {
            for sets in BOTH {
                let by = Setting { sets, budget: 6, room, work_room };
                let expected = if room < 10 || work_room < 10 { refusal } else { None };
                assert_eq!(refused(&DAY_M, by), expected, "{by:?}");
            }
        }
    }
}

#[test]
fn a_refused_day_is_answered_before_k_and_the_room() {
    for change in CHANGES {
        let (words, answer) = changed(change);
        let Some((number, place)) = answer else { continue };
        for (k, room) in [(0, 0), (51, 10), (K, 9), (K, 10), (K, 100)] {
            for sets in [Sets::Nearest(k), Sets::Growing] {
                let by = Setting { sets, budget: 6, room, work_room: room };
                assert_eq!(refused(&words, by), Some(Refusal { number, place }), "{change:X?}");
            }
        }
    }
    for sets in [Sets::Nearest(0), Sets::Growing] {
        let by = setting(sets, 0, 0);
        assert_eq!(refused(&[], by), Some(Refusal { number: 1, place: 0 }));
        assert_eq!(refused(&DAY_M[..30], by), Some(Refusal { number: 4, place: 30 }));
    }
}

/// No budget: the greedy plan, as the build writes it.
#[test]
fn no_trial_is_made_where_the_budget_has_none() {
    let mut random = Random::new(71);
    for stops in [1, 5, 30, 240] {
        let words = build_day(&mut random, stops, 3).words();
        let mut built = vec![BEFORE; 5 * stops];
        let expected = build(&words, &mut built).expect("the day is built");
        for sets in [Sets::Nearest(1), Sets::Growing] {
            let (mut planned, mut work) = (vec![BEFORE; 5 * stops], vec![BEFORE; 5 * stops]);
            let answer = plan_with(sets, &words, 0, &mut planned, &mut work);
            let answer = answer.expect("the day is planned");
            assert_eq!(Planned { settled: false, ..answer }, expected);
            assert_eq!(planned, built);
        }
    }
}

#[test]
fn each_budget_up_to_the_end_is_planned_as_the_reference_plans_it() {
    let mut random = Random::new(72);
    let mut tally = Tally::default();
    for k in [1, 5, 50] {
        let (day, end) = day_with_trials(&mut random, k);
        for budget in 0..=end + 2 {
            let by = setting(Sets::Nearest(k), budget, day.stops.len());
            plan_alike(&day.words(), by, &mut random, &mut tally);
        }
    }
    println!("{tally}");
    assert_eq!((tally.met["settled"], tally.met.contains_key("not settled")), (9, true));
    assert!(tally.met["shorter than the greedy plan"] >= 100);
}

/// A small day on which 100 to 400 trials are made, and how many.
fn day_with_trials(random: &mut Random, k: u64) -> (Day, u64) {
    loop {
        let day = build_day(random, 6, 3);
        let planned = planning::plan(&day, k, u64::MAX, 30, 30).expect("the day is planned");
        if (100..400).contains(&planned.trials) {
            return (day, planned.trials);
        }
    }
}

#[test]
fn each_k_is_planned_as_the_reference_plans_it() {
    let mut random = Random::new(73);
    let mut tally = Tally::default();
    for k in 0..=51 {
        let day = build_day(&mut random, 60, 1 + k as usize % 4).words();
        plan_alike(&day, setting(Sets::Nearest(k), 150, 60), &mut random, &mut tally);
    }
    println!("{tally}");
    assert_eq!((tally.met["plans written"], tally.refused[13]), (50, 2));
}

#[test]
fn large_days_are_planned_as_the_reference_plans_them() {
    let mut tally = Tally::default();
    let each = [Sets::Nearest(5), Sets::Nearest(10), Sets::Nearest(50), Sets::Growing];
    for stops in [60, 240] {
        for (seed, sets) in (5..).zip(each) {
            let mut random = Random::new(seed);
            let by = setting(sets, 250, stops);
            let long = day_of_few_long_rounds(&mut random, stops, 15).words();
            plan_alike(&long, by, &mut random, &mut tally);
            let short = day_of_many_short_rounds(&mut random, stops, 15).words();
            plan_alike(&short, by, &mut random, &mut tally);
            plan_alike(&short, Setting { room: 5 * stops - 1, ..by }, &mut random, &mut tally);
            plan_alike(&short, Setting { work_room: 5 * stops - 1, ..by }, &mut random, &mut tally);
        }
    }
    println!("{tally}");
    assert_eq!((tally.met["plans written"], tally.refused[14]), (16, 16));
    assert_eq!(tally.met["shorter than the greedy plan"], 16);
}

#[test]
fn random_and_damaged_days_are_planned_as_the_reference_plans_them() {
    let mut tally = Tally::default();
    for seed in 330..336 {
        let mut random = Random::new(seed);
        for _ in 0..1_000 {
            round(&mut random, &mut tally);
        }
    }
    println!("{tally}");
    assert_rounds(&tally, 6_000);
    assert!(tally.refused[13] >= 200, "K outside");
}

/// Each outcome was met often enough in so many rounds.
fn assert_rounds(tally: &Tally, rounds: u64) {
    assert!(tally.met["plans written"] >= rounds / 2);
    for name in ["settled", "not settled", "shorter than the greedy plan", "with several vehicles"]
    {
        assert!(tally.met[name] >= rounds / 12, "{name}");
    }
    for name in [
        "with fewer words than the greedy plan",
        "with more words than the greedy plan",
        "with stops left out",
    ] {
        assert!(tally.met[name] >= rounds / 120, "{name}");
    }
    assert!(tally.refused[1..6].iter().sum::<u64>() >= rounds / 60, "refused days");
    assert!(tally.refused[14] >= rounds / 20, "buffers too short");
}
