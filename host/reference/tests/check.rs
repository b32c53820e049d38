//! The second implementation of the check, held to what was worked out by hand.

use reference::check::{check, Totals, MOST_WORDS};
use reference::day::{self, Day};
use reference::rounds::{same_rounds, vehicle};
use reference::samples::day_m;
use reference::worked_plans::{
    day_of, long_plan, Answer, A1, B1, B2, C1, D, E, F1, F2, FORMS, NO_STOPS, OF_NO_STOPS, PLAN_M,
    RULES, TWO_VEHICLES,
};
use reference::{bytes, plain, Refusal};

fn refusal(number: u64, place: u64) -> Refusal {
    Refusal { number, place }
}

fn answer(checked: Result<Totals, Refusal>) -> Answer {
    checked
        .map(|totals| (totals.distance, totals.vehicles, totals.served))
        .map_err(|refusal| (refusal.number, refusal.place))
}

fn read(words: &[u32]) -> Day {
    day::read(words).expect("the day is accepted")
}

#[test]
fn each_worked_plan_is_answered_as_worked_out_by_hand() {
    for worked in FORMS.iter().chain(RULES) {
        let words = day_of(worked);
        let (shows, _, plan, expected) = *worked;
        assert_eq!(answer(check(&read(&words), plan)), expected, "{shows}");
        assert_eq!(answer(plain::check(&words, plan)), expected, "{shows}, plain");
    }
}

#[test]
fn a_day_with_no_stops_has_the_plan_of_no_words() {
    for (plan, expected) in OF_NO_STOPS {
        assert_eq!(answer(check(&read(&NO_STOPS), plan)), *expected, "{plan:X?}");
        assert_eq!(answer(plain::check(&NO_STOPS, plan)), *expected, "{plan:X?}, plain");
    }
}

#[test]
fn a_plan_has_at_most_4_096_words() {
    let (day, plan) = long_plan(4_096);
    assert_eq!(answer(check(&day, &plan)), Ok((21, 1, 1)));
    assert_eq!(answer(plain::check(&day.words(), &plan)), Ok((21, 1, 1)));
    let (day, plan) = long_plan(4_097);
    assert_eq!(check(&day, &plan), Err(refusal(6, 4_096)));
    assert_eq!(plain::check(&day.words(), &plan), Err(refusal(6, 4_096)));
    assert_eq!(check(&day, &[0; 10_000]), Err(refusal(6, 4_096)));
    assert_eq!(check(&day, &[0; MOST_WORDS]), Err(refusal(7, 0)));
}

#[test]
fn a_refused_day_is_answered_before_the_plan() {
    let mut words = day_m().words();
    words[30] = 0x9000_0001;
    assert_eq!(plain::check(&words, &[0; 5_000]), Err(refusal(5, 30)));
}

#[test]
fn a_vehicle_is_found_by_its_whole_number() {
    let day = day_m();
    let find = |number| vehicle(&day, &TWO_VEHICLES, number);
    assert_eq!(find(1), Ok(0..4));
    assert_eq!(find(2), Ok(4..8));
    for number in [0, 3, 255, 256, 257, 1 << 32 | 1, 1 << 63, u64::MAX] {
        assert_eq!(find(number), Err(refusal(15, number)));
    }
    assert_eq!(vehicle(&day, &PLAN_M, 1), Ok(0..7));
    assert_eq!(vehicle(&day, &[A1, B1, C1, E, F2], 1), Ok(0..4));
    assert_eq!(vehicle(&day, &[F1, F2], 1), Err(refusal(15, 1)));
    assert_eq!(vehicle(&day, &[], 0), Err(refusal(8, 0)));
    assert_eq!(vehicle(&day, &[A1, B1, C1, E], 1), Err(refusal(8, 4)));
}

#[test]
fn tips_and_rests_do_not_count_among_the_rounds() {
    let day = day_m();
    let same = |first: &[u32], second: &[u32]| same_rounds(&day, first, second);
    assert_eq!(same(&PLAN_M, &PLAN_M), Ok(true));
    assert_eq!(same(&PLAN_M, &[A1, B1, D, C1, B2, C1, E]), Err(refusal(11, 11)));
    assert_eq!(same(&PLAN_M, &TWO_VEHICLES), Ok(false));
    assert_eq!(same(&[A1, B1, C1, E, F2], &[A1, C1, B1, C1, C1, E, F2]), Ok(true));
    assert_eq!(same(&[A1, B1, C1, E, F2], &[A1, D, B1, C1, E, F2]), Ok(true));
    assert_eq!(same(&[A1, B1, C1, E, F2], &[A1, B2, C1, E, F1]), Ok(false));
    assert_eq!(same(&[A1, B1, C1, D, B2, C1, E], &[A1, B2, C1, D, B1, C1, E]), Ok(false));
    assert_eq!(same(&[F1, F2], &[F1, F2]), Ok(true));
    assert_eq!(same(&[F1, F2], &[A1, B1, C1, E, F2]), Ok(false));
    assert_eq!(same_rounds(&read(&NO_STOPS), &[], &[]), Ok(true));
}

#[test]
fn the_places_of_the_second_plan_count_on_from_the_first() {
    let day = day_m();
    let same = |first: &[u32], second: &[u32]| same_rounds(&day, first, second);
    assert_eq!(same(&PLAN_M, &[]), Err(refusal(8, 7)));
    assert_eq!(same(&PLAN_M, &[A1, B1]), Err(refusal(7, 9)));
    assert_eq!(same(&PLAN_M, &[A1, B1, E]), Err(refusal(10, 9)));
    assert_eq!(same(&PLAN_M, &[0; 4_097]), Err(refusal(6, 4_103)));
    assert_eq!(same(&[F1, F2], &PLAN_M[..6]), Err(refusal(7, 8)));
    // the first is judged to its end before the second is looked at
    assert_eq!(same(&[F1], &[0]), Err(refusal(8, 1)));
    assert_eq!(same(&[A1, B1], &[0; 4_097]), Err(refusal(7, 2)));
    assert_eq!(same(&[0; 4_097], &[0]), Err(refusal(6, 4_096)));
}

#[test]
fn the_sample_plan_is_that_of_case_a() {
    let path = concat!(env!("CARGO_MANIFEST_DIR"), "/../../examples/day-m.plan");
    let file = std::fs::read(path).expect("the sample plan is there");
    assert_eq!(file, bytes::write(&PLAN_M));
}
