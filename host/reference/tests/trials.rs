//! The second implementation of planning with trials, held to what document 01 gives, and to the
//! plain path that the benchmark times.

use reference::day::{self, Day};
use reference::planning::Planned;
use reference::random::Random;
use reference::samples::day_m;
use reference::sets::Sets;
use reference::trial_days::{
    day_of_few_long_rounds, day_of_many_short_rounds, random_sets, random_setting,
    random_trial_file, Setting,
};
use reference::worked::{changed, CHANGES};
use reference::worked_plans::NO_STOPS;
use reference::worked_trials::{day_of_trials, each_case, K};
use reference::Refusal;

/// What stands in the buffers before.
const BEFORE: u32 = 0x5555_5555;

fn read(words: &[u32]) -> Day {
    day::read(words).expect("the day is accepted")
}

fn setting(sets: Sets, budget: u64, room: usize, work_room: usize) -> Setting {
    Setting { sets, budget, room, work_room }
}

/// Plans an accepted day by this setting.
fn planned(day: &Day, by: Setting) -> Result<Planned, Refusal> {
    by.sets.plan(day, by.budget, by.room, by.work_room)
}

/// The same by the plain path, which has to leave the plan buffer as it should be.
fn planned_plainly(words: &[u32], by: Setting) -> Result<Planned, Refusal> {
    let (mut plan, mut work) = (vec![BEFORE; by.room], vec![BEFORE; by.work_room]);
    let answer = by.sets.plan_plainly(words, by.budget, &mut plan, &mut work);
    let Ok(answer) = answer else {
        assert!(plan.iter().chain(&work).all(|word| *word == BEFORE), "{words:X?}");
        return Err(answer.unwrap_err());
    };
    let (written, behind) = plan.split_at(5 * read(words).stops.len());
    let (written, zeros) = written.split_at(answer.words);
    assert!(zeros.iter().all(|word| *word == 0), "{words:X?}");
    assert!(behind.iter().all(|word| *word == BEFORE), "{words:X?}");
    Ok(Planned {
        words: written.to_vec(),
        distance: answer.distance,
        trials: answer.trials,
        settled: answer.settled,
        left_out: answer.left_out as u64,
    })
}

/// The lettered cases, as document 01 gives them, and those of growing neighbour sets.
#[test]
fn each_worked_case_is_planned_so() {
    for (sets, worked) in each_case() {
        let (shows, _, budget, (words, distance, left_out), counted) = *worked;
        let file = day_of_trials(worked);
        let by = setting(sets, budget, 10, 10);
        for answer in [planned(&read(&file), by), planned_plainly(&file, by)] {
            let answer = answer.expect("the day is planned");
            assert_eq!(answer.words, words, "{shows}");
            assert_eq!((answer.distance, answer.left_out), (distance, left_out), "{shows}");
            if let Some(counted) = counted {
                assert_eq!((answer.trials, answer.settled), counted, "{shows}");
            }
        }
    }
}

/// An accepted day that neither of the two plans by this setting.
fn assert_refused(words: &[u32], by: Setting, refusal: Refusal) {
    assert_eq!(planned(&read(words), by), Err(refusal), "{by:?}");
    assert_eq!(planned_plainly(words, by), Err(refusal), "{by:?}");
}

/// Case (j).
#[test]
fn a_day_with_no_stops_is_settled_with_no_budget() {
    let nothing = Planned { words: Vec::new(), distance: 0, trials: 0, settled: true, left_out: 0 };
    for sets in [Sets::Nearest(K), Sets::Growing] {
        let by = setting(sets, 0, 0, 0);
        assert_eq!(planned(&read(&NO_STOPS), by), Ok(nothing.clone()));
        assert_eq!(planned_plainly(&NO_STOPS, by), Ok(nothing.clone()));
    }
}

/// The plan buffer and the working buffer need the same, so of these two it does not show which is
/// judged first.
#[test]
fn k_is_judged_before_the_buffers() {
    for (k, room, work_room, number, place) in [
        (0, 9, 9, 13, 0),
        (51, 9, 9, 13, 51),
        (51, 10, 10, 13, 51),
        (u64::MAX, 10, 10, 13, u64::MAX),
        (1 << 32 | 5, 10, 10, 13, 1 << 32 | 5),
        (1, 9, 10, 14, 10),
        (50, 10, 9, 14, 10),
        (50, 0, 0, 14, 10),
    ] {
        let by = setting(Sets::Nearest(k), 6, room, work_room);
        assert_refused(&day_m().words(), by, Refusal { number, place });
    }
    for k in [0, 51] {
        let by = setting(Sets::Nearest(k), 0, 0, 0);
        assert_refused(&NO_STOPS, by, Refusal { number: 13, place: k });
    }
}

#[test]
fn growing_neighbour_sets_need_the_same_buffers() {
    for (room, work_room) in [(9, 10), (10, 9), (9, 9), (0, 0), (11, 9)] {
        let by = setting(Sets::Growing, 24, room, work_room);
        assert_refused(&day_m().words(), by, Refusal { number: 14, place: 10 });
    }
}

#[test]
fn a_refused_day_is_answered_before_k_and_the_room() {
    for change in CHANGES {
        let (words, refused) = changed(change);
        let Some((number, place)) = refused else { continue };
        for sets in [Sets::Nearest(0), Sets::Growing] {
            let answer = planned_plainly(&words, setting(sets, 6, 9, 9));
            assert_eq!(answer, Err(Refusal { number, place }), "{change:X?}");
        }
    }
}

/// What the benchmark times has to be the same planning.
#[test]
fn the_plain_path_plans_as_the_second_implementation() {
    let mut random = Random::new(51);
    let (mut settled, mut not_settled, mut refused) = (0, 0, 0);
    for _ in 0..3_000 {
        let words = random_trial_file(&mut random);
        let sets = random_sets(&mut random);
        let by = random_setting(&mut random, &words, sets);
        let expected = day::read(&words).and_then(|day| planned(&day, by));
        match &expected {
            Ok(planned) if planned.settled => settled += 1,
            Ok(_) => not_settled += 1,
            Err(_) => refused += 1,
        }
        assert_eq!(planned_plainly(&words, by), expected, "{by:?} of {words:X?}");
    }
    println!("{settled} settled, {not_settled} not settled, {refused} refused");
    assert!(settled > 1_000 && not_settled > 300 && refused > 300);
}

/// The days of the benchmark are what it calls them, and both plan them alike.
#[test]
fn a_day_of_few_long_rounds_has_few_and_one_of_many_short_rounds_many() {
    for stops in [60, 240] {
        for sets in [Sets::Nearest(5), Sets::Nearest(10), Sets::Nearest(50), Sets::Growing] {
            let by = setting(sets, 200, 5 * stops, 5 * stops);
            let long = day_of_few_long_rounds(&mut Random::new(1), stops, 15);
            let short = day_of_many_short_rounds(&mut Random::new(1), stops, 15);
            for (day, least, most) in [(long, 2, 6), (short, stops / 6, stops)] {
                let planned = planned(&day, by).expect("the day is planned");
                let vehicles = planned.words.iter().filter(|word| **word >> 28 == 0xA).count();
                assert!((least..=most).contains(&vehicles), "{vehicles} vehicles");
                assert_eq!(planned_plainly(&day.words(), by), Ok(planned));
            }
        }
    }
}
