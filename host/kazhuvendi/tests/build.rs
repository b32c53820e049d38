//! The greedy build: the library's plans beside those of the second implementation and those that
//! were worked out by hand.

#[path = "compare/builds.rs"]
mod builds;
mod compare;
#[path = "compare/written.rs"]
mod written;

use builds::{build_alike, round};
use compare::Tally;
use kazhuvendi::{build, Planned, Refusal};
use reference::build_days::build_day;
use reference::random::Random;
use reference::workdays::usual_day;
use reference::worked::{changed, CHANGES, DAY_M};
use reference::worked_builds::{day_of_build, BUILDS};
use reference::worked_plans::{NO_STOPS, PLAN_M};

/// What stands in a buffer before the plan is written.
const BEFORE: u32 = 0x5555_5555;

fn built(distance: u64, left_out: usize, words: usize) -> Planned {
    Planned { distance, trials: 0, settled: false, left_out, words }
}

#[test]
fn each_worked_build_is_as_worked_out_by_hand() {
    for worked in BUILDS {
        let (shows, _, words, (distance, left_out)) = *worked;
        let mut plan = [BEFORE; 13];
        let answer = build(&day_of_build(worked), &mut plan);
        assert_eq!(answer, Ok(built(distance, left_out as usize, words.len())), "{shows}");
        assert_eq!(&plan[..words.len()], words, "{shows}");
        assert!(plan[words.len()..10].iter().all(|word| *word == 0), "{shows}");
        assert_eq!(plan[10..], [BEFORE; 3], "{shows}");
    }
}

#[test]
fn a_day_with_no_stops_needs_no_room_and_writes_nothing() {
    assert_eq!(build(&NO_STOPS, &mut []), Ok(built(0, 0, 0)));
    let mut plan = [BEFORE; 4];
    assert_eq!(build(&NO_STOPS, &mut plan), Ok(built(0, 0, 0)));
    assert_eq!(plan, [BEFORE; 4]);
}

#[test]
fn five_words_are_needed_for_each_stop() {
    for room in 0..=40 {
        let mut plan = vec![BEFORE; room];
        let answer = build(&DAY_M, &mut plan);
        if room < 10 {
            assert_eq!(answer, Err(Refusal { number: 14, place: 10 }), "room {room}");
            assert_eq!(plan, vec![BEFORE; room]);
        } else {
            assert_eq!(answer, Ok(built(35, 0, 7)), "room {room}");
            assert_eq!(plan[..7], PLAN_M);
            assert_eq!(plan[7..10], [0; 3]);
            assert_eq!(plan[10..], vec![BEFORE; room - 10]);
        }
    }
}

#[test]
fn a_refused_day_is_answered_before_the_room_and_changes_nothing() {
    for change in CHANGES {
        let (words, refused) = changed(change);
        let Some((number, place)) = refused else { continue };
        for room in [0, 9, 10, 100] {
            let mut plan = vec![BEFORE; room];
            assert_eq!(build(&words, &mut plan), Err(Refusal { number, place }), "{change:X?}");
            assert_eq!(plan, vec![BEFORE; room], "{change:X?}");
        }
    }
    assert_eq!(build(&[], &mut []), Err(Refusal { number: 1, place: 0 }));
    assert_eq!(build(&DAY_M[..30], &mut [0; 10]), Err(Refusal { number: 4, place: 30 }));
}

#[test]
fn a_day_of_each_number_of_stops_is_built_as_the_reference_builds_it() {
    let mut random = Random::new(41);
    let mut tally = Tally::default();
    for stops in 0..=240 {
        let day = build_day(&mut random, stops, 1 + stops % 15).words();
        build_alike(&day, 5 * stops, &mut random, &mut tally);
        build_alike(&day, 5 * stops + 1, &mut random, &mut tally);
        if stops > 0 {
            build_alike(&day, 5 * stops - 1, &mut random, &mut tally);
        }
    }
    println!("{tally}");
    assert_eq!((tally.met["plans built"], tally.refused[14]), (482, 240));
}

#[test]
fn large_usual_days_are_built_as_the_reference_builds_them() {
    let mut tally = Tally::default();
    for seed in 300..310 {
        let mut random = Random::new(seed);
        let day = usual_day(&mut random, 240, 15).words();
        build_alike(&day, 1_200, &mut random, &mut tally);
        build_alike(&day, 1_300, &mut random, &mut tally);
        build_alike(&day, 1_199, &mut random, &mut tally);
    }
    println!("{tally}");
    assert_eq!((tally.met["plans built"], tally.refused[14]), (20, 10));
    assert_eq!(tally.met["with 100 stops served"], 20);
}

#[test]
fn random_and_damaged_days_are_built_as_the_reference_builds_them() {
    let mut tally = Tally::default();
    for seed in 310..330 {
        let mut random = Random::new(seed);
        for _ in 0..1_000 {
            round(&mut random, &mut tally);
        }
    }
    println!("{tally}");
    assert!(tally.met["plans built"] >= 10_000);
    for name in [
        "with several vehicles",
        "with several tips",
        "with stops left out",
        "with no stop left out",
        "with a rest before the first stop",
        "with no rest",
    ] {
        assert!(tally.met[name] >= 1_000, "{name}");
    }
    assert!(tally.met["with 100 stops served"] >= 20);
    assert!(tally.refused[1..6].iter().sum::<u64>() >= 500, "refused days");
    assert!(tally.refused[14] >= 1_000, "buffers too short");
}
