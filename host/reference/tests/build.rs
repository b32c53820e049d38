//! The second implementation of the greedy build, held to what was worked out by hand, to the
//! check, and to the plain one that the benchmark times.

use reference::build::{build, could_take_first, Built};
use reference::build_days::{random_build_day, random_file};
use reference::check::check;
use reference::day::{self, Day};
use reference::plain;
use reference::random::Random;
use reference::samples::day_m;
use reference::worked::{changed, CHANGES};
use reference::worked_builds::{day_of_build, BUILDS};
use reference::worked_plans::NO_STOPS;
use reference::Refusal;

/// What stands in a buffer before the plan is written.
const BEFORE: u32 = 0x5555_5555;

fn read(words: &[u32]) -> Day {
    day::read(words).expect("the day is accepted")
}

fn built(day: &Day) -> Built {
    build(day, 5 * day.stops.len()).expect("the room is enough")
}

/// Builds with plain Rust in a buffer of so many words. What it comes to, and what is in the buffer.
fn plain_build(words: &[u32], room: usize) -> (Result<plain::Planned, Refusal>, Vec<u32>) {
    let mut plan = vec![BEFORE; room];
    let planned = plain::build(words, &mut plan);
    (planned, plan)
}

/// What a buffer of so many words holds after this plan was written.
fn buffer(built: &Built, stops: usize, room: usize) -> Vec<u32> {
    let mut plan = built.words.clone();
    plan.resize(5 * stops, 0);
    plan.resize(room, BEFORE);
    plan
}

fn planned(built: &Built) -> plain::Planned {
    plain::Planned {
        distance: built.distance,
        trials: 0,
        settled: false,
        left_out: built.left_out as usize,
        words: built.words.len(),
    }
}

#[test]
fn each_worked_build_is_as_worked_out_by_hand() {
    for worked in BUILDS {
        let words = day_of_build(worked);
        let (shows, _, plan, (distance, left_out)) = *worked;
        let expected = Built { words: plan.to_vec(), distance, left_out };
        assert_eq!(built(&read(&words)), expected, "{shows}");
        let (answer, written) = plain_build(&words, 12);
        assert_eq!(answer, Ok(planned(&expected)), "{shows}, plain");
        assert_eq!(written, buffer(&expected, 2, 12), "{shows}, plain");
    }
}

#[test]
fn a_day_with_no_stops_has_the_plan_of_no_words() {
    let nothing = Built { words: Vec::new(), distance: 0, left_out: 0 };
    assert_eq!(build(&read(&NO_STOPS), 0), Ok(nothing.clone()));
    assert_eq!(plain_build(&NO_STOPS, 3), (Ok(planned(&nothing)), vec![BEFORE; 3]));
}

#[test]
fn five_words_are_needed_for_each_stop() {
    let refusal = Refusal { number: 14, place: 10 };
    for room in 0..10 {
        assert_eq!(build(&day_m(), room), Err(refusal));
        assert_eq!(plain_build(&day_m().words(), room), (Err(refusal), vec![BEFORE; room]));
    }
    assert!(build(&day_m(), 10).is_ok() && build(&day_m(), 11).is_ok());
}

#[test]
fn a_refused_day_is_answered_before_the_room() {
    for change in CHANGES {
        let (words, refused) = changed(change);
        let Some((number, place)) = refused else { continue };
        let refusal = Refusal { number, place };
        assert_eq!(plain_build(&words, 9), (Err(refusal), vec![BEFORE; 9]), "{change:X?}");
    }
}

#[test]
fn a_greedy_plan_is_lawful_and_leaves_out_only_what_no_fresh_vehicle_could_take_first() {
    let mut random = Random::new(31);
    let (mut several_vehicles, mut left_out, mut all_served) = (0, 0, 0);
    for _ in 0..4_000 {
        let day = random_build_day(&mut random);
        let built = built(&day);
        let stops = day.stops.len();
        let totals = check(&day, &built.words).expect("a greedy plan is lawful");
        assert_eq!(totals.distance, built.distance);
        assert_eq!(totals.served + built.left_out, stops as u64);
        assert!(built.words.len() <= 5 * stops);
        for word in built.words.iter().filter(|word| **word >> 28 == 0xF) {
            assert!(!could_take_first(&day, word & 0xFF), "{word:X} of {day:?}");
        }
        several_vehicles += u32::from(totals.vehicles > 1);
        left_out += u32::from(built.left_out > 0);
        all_served += u32::from(built.left_out == 0 && stops > 0);
    }
    assert!(several_vehicles > 500, "{several_vehicles} with several vehicles");
    assert!(left_out > 500, "{left_out} with stops left out");
    assert!(all_served > 1_000, "{all_served} with no stop left out");
}

/// What stands first on a vehicle could be taken first. So the words that a plan leaves out are
/// told from the others, and the test above can fail.
#[test]
fn each_first_stop_of_a_vehicle_could_be_taken_first() {
    let mut random = Random::new(32);
    for _ in 0..1_000 {
        let day = random_build_day(&mut random);
        let words = built(&day).words;
        for vehicle in words.split(|word| word >> 28 == 0xE) {
            let first = vehicle.iter().find(|word| **word >> 28 == 0xB);
            assert!(first.is_none_or(|word| could_take_first(&day, word & 0xFF)));
        }
    }
}

/// What the benchmark times has to be the same build.
#[test]
fn plain_rust_builds_as_the_second_implementation() {
    let mut random = Random::new(33);
    let (mut built_plans, mut refused) = (0, 0);
    for _ in 0..6_000 {
        let words = random_file(&mut random);
        let room = 5 * day::read(&words).map_or(0, |day| day.stops.len()) + random.below(4);
        let room = room.saturating_sub(random.one_of(&[0, 0, 0, 1]));
        let expected = day::read(&words).and_then(|day| Ok((build(&day, room)?, day.stops.len())));
        let (answer, written) = plain_build(&words, room);
        match expected {
            Ok((built, stops)) => {
                assert_eq!(written, buffer(&built, stops, room), "{words:X?}");
                assert_eq!(answer, Ok(planned(&built)), "{words:X?}");
                built_plans += 1;
            }
            Err(refusal) => {
                assert_eq!((answer, written), (Err(refusal), vec![BEFORE; room]), "{words:X?}");
                refused += 1;
            }
        }
    }
    assert!(built_plans > 4_000 && refused > 300, "{built_plans} built, {refused} refused");
}
