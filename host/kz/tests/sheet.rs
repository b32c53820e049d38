//! The sheets of lawful plans, against the rules of a timetable as the second implementation has
//! them: its answers to plans, and its search for a timetable from the last word backwards.

mod plans;

use kz::day::{Day, Window};
use kz::sheet::{Act, Entry, Round, Sheet};
use plans::cases;
use reference::plan::Word;
use reference::random::Random;
use reference::samples::random_size;
use reference::worked::DAY_M;
use reference::worked_plans::PLAN_M;
use reference::{check, day, timetable};

#[test]
fn the_words_of_a_day_are_taken_apart_and_put_back() {
    let mut random = Random::new(1);
    for _ in 0..300 {
        let (stops, tips) = random_size(&mut random);
        let made = reference::samples::random_day(&mut random, stops, tips);
        let day = Day::of(&made.words());
        assert_eq!(day.words(), made.words());
        assert_eq!(
            (day.load_limit, day.day_load_limit, day.day_stop_limit),
            (made.limits.load, made.limits.day_load, made.limits.day_stops)
        );
        let window = |window: day::Window| (window.opening, window.closing);
        assert_eq!((day.rest.opening, day.rest.closing), window(made.rest));
        assert_eq!((day.depot.opening, day.depot.closing), window(made.depot));
        let last = day.places() - 1;
        assert_eq!(day.leg(last, 0).distance, made.legs[last][0].distance);
        assert_eq!(day.leg(0, last).minutes, made.legs[0][last].minutes);
    }
}

#[test]
#[should_panic(expected = "accepted day")]
fn words_that_are_refused_are_no_day() {
    Day::of(&DAY_M[..30]);
}

#[test]
fn day_m_has_the_minutes_that_were_worked_out_by_hand() {
    let sheet = Sheet::of(&Day::of(&DAY_M), &PLAN_M);
    let [round] = &sheet.rounds[..] else { panic!("one vehicle") };
    let starts: Vec<u32> = round.entries.iter().map(|entry| entry.start).collect();
    assert_eq!(starts, [0, 10, 25, 30, 50, 65, 80]);
    let loads: Vec<u32> = round.entries.iter().map(|entry| entry.load).collect();
    assert_eq!(loads, [0, 60, 0, 0, 50, 0, 0]);
    assert_eq!((round.collected, round.stops, round.distance()), (110, 2, 35));
    assert_eq!((round.leaves(), round.back(), round.tippings()), (0, 80, 2));
}

#[test]
fn sums_are_those_of_the_library_and_of_the_second_implementation() {
    for (made, plan, day, sheet) in cases(2, 400) {
        let totals = kazhuvendi::check(&made.words(), &plan).expect("it is lawful");
        assert_eq!(sheet.distance(), totals.distance);
        assert_eq!(sheet.rounds.len(), totals.vehicles);
        assert_eq!(sheet.stops(), totals.served);
        assert_eq!(sheet.left_out.len() + sheet.stops(), day.stops.len());
        let expected = check::check(&made, &plan).expect("it is lawful");
        assert_eq!(sheet.distance(), expected.distance);
    }
}

/// The rules for one vehicle's minutes, read off document 01.
fn assert_lawful(day: &Day, round: &Round) {
    let within =
        |window: Window, entry: &Entry| (window.opening..=window.closing).contains(&entry.start);
    for pair in round.entries.windows(2) {
        let [before, entry] = pair else { unreachable!("two at a time") };
        let leg = day.leg(before.place, entry.place);
        assert_eq!(entry.arrival, before.end + leg.minutes);
        assert_eq!(entry.distance - before.distance, u64::from(leg.distance));
        assert!(entry.start >= entry.arrival && entry.load <= day.load_limit);
        match entry.act {
            Act::Leave => panic!("a vehicle leaves once"),
            Act::Stop(stop) => assert!(within(day.stops[stop - 1].visit.window, entry)),
            Act::Tip(tip) => assert!(within(day.tips[tip - 1].window, entry) && entry.load == 0),
            Act::Rest => assert!(within(day.rest, entry) && entry.place == before.place),
            Act::Back => assert!(entry.end <= day.depot.closing && entry.load == 0),
        }
    }
    let rests = round.entries.iter().filter(|entry| entry.act == Act::Rest).count();
    assert!(rests == 1 || rests == 0 && round.back() <= day.rest.closing);
    assert!(round.leaves() >= day.depot.opening);
    assert!(round.collected <= day.day_load_limit && round.stops <= day.day_stop_limit as usize);
}

#[test]
fn every_window_and_the_rest_rule_are_met() {
    for (_, _, day, sheet) in cases(3, 400) {
        sheet.rounds.iter().for_each(|round| assert_lawful(&day, round));
    }
}

/// The words of a round up to its entry `last`.
fn words(round: &Round, last: usize) -> Vec<Word> {
    let word = |entry: &Entry| match entry.act {
        Act::Leave => Word::Vehicle(round.number as u32),
        Act::Stop(stop) => Word::Stop(stop as u32),
        Act::Tip(tip) => Word::Tip(tip as u32),
        Act::Rest => Word::Rest,
        Act::Back => Word::Back,
    };
    round.entries[..=last].iter().map(word).collect()
}

/// A visit cannot start before its entry says so: where its window closes a minute earlier, the
/// search from the last word backwards finds no timetable, and at that very minute it finds one.
#[test]
fn no_visit_can_start_earlier() {
    let mut tried = 0;
    for (mut day, _, _, sheet) in cases(4, 200) {
        for round in &sheet.rounds {
            for (index, entry) in round.entries.iter().enumerate() {
                let Act::Stop(stop) = entry.act else { continue };
                let kept = day.stops[stop - 1].window;
                let mut exists_by = |closing| {
                    day.stops[stop - 1].window.closing = closing;
                    timetable::exists(&day, &words(round, index), u32::MAX)
                };
                assert!(exists_by(entry.start));
                assert!(entry.start == 0 || !exists_by(entry.start - 1));
                day.stops[stop - 1].window = kept;
                tried += 1;
            }
            let last = round.entries.len() - 1;
            assert!(timetable::exists(&day, &words(round, last), round.back()));
            assert!(
                round.back() == 0
                    || !timetable::exists(&day, &words(round, last), round.back() - 1)
            );
        }
    }
    assert!(tried > 500, "only {tried} visits were tried");
}
