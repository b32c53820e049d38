//! The check, one vehicle's part and same rounds: the library's answers beside those of the second
//! implementation and those that were worked out by hand.

mod compare;
#[path = "compare/plans.rs"]
mod plans;

use compare::Tally;
use kazhuvendi::{check, same_rounds, vehicle, vehicle_place, Refusal, Totals};
use plans::{check_alike, round, rounds_alike, vehicle_alike, LentDay, Tallies};
use reference::drafts::random_draft;
use reference::plan_damage::damage_plan;
use reference::random::Random;
use reference::workdays::usual_day;
use reference::worked::{changed, CHANGES, DAY_M};
use reference::worked_plans::{
    day_of, long_plan, Answer, A1, A2, B1, B2, C1, D, E, F1, F2, FORMS, NO_STOPS, OF_NO_STOPS,
    PLAN_M, RULES, TWO_VEHICLES,
};

fn answer(checked: Result<Totals, Refusal>) -> Answer {
    checked
        .map(|totals| (totals.distance, totals.vehicles as u64, totals.served as u64))
        .map_err(|refusal| (refusal.number, refusal.place))
}

#[test]
fn each_worked_plan_is_answered_as_worked_out_by_hand() {
    for worked in FORMS.iter().chain(RULES) {
        let (shows, _, plan, expected) = *worked;
        assert_eq!(answer(check(&day_of(worked), plan)), expected, "{shows}");
    }
    for (plan, expected) in OF_NO_STOPS {
        assert_eq!(answer(check(&NO_STOPS, plan)), *expected, "{plan:X?}");
    }
}

#[test]
fn a_plan_has_at_most_4_096_words() {
    for length in 4_090..4_100 {
        let (day, plan) = long_plan(length);
        let expected = if length > 4_096 { Err((6, 4_096)) } else { Ok((21, 1, 1)) };
        assert_eq!(answer(check(&day.words(), &plan)), expected, "{length} words");
    }
    assert_eq!(answer(check(&DAY_M, &[0; 100_000])), Err((6, 4_096)));
}

#[test]
fn a_refused_day_is_answered_before_anything_about_plan_and_number() {
    let plans: [&[u32]; 4] = [&PLAN_M, &[], &[0], &[0; 5_000]];
    for change in CHANGES {
        let (words, refused) = changed(change);
        let Some((number, place)) = refused else { continue };
        let refusal = Refusal { number, place };
        for plan in plans {
            assert_eq!(check(&words, plan), Err(refusal));
            assert_eq!(vehicle(&words, plan, 0), Err(refusal));
            assert_eq!(same_rounds(&words, plan, &[0]), Err(refusal));
        }
    }
    assert_eq!(answer(check(&[], &[])), Err((1, 0)));
    assert_eq!(answer(check(&DAY_M[..30], &PLAN_M)), Err((4, 30)));
}

/// Where a word is refused, no word behind it is looked at: the answer is that of every longer
/// plan too, so only plans that are not refused before their end are made longer.
fn try_all(day: &LentDay, plan: &mut Vec<u32>, most: usize, tally: &mut Tally) {
    check_alike(day, plan, tally);
    let inside = |refusal: Refusal| refusal.place < plan.len() as u64;
    if plan.len() == most || check(&day.words, plan).is_err_and(inside) {
        return;
    }
    for word in [A1, A2, B1, B2, C1, D, E, F1, F2, 0xB000_0003, 0xC000_0002, 0] {
        plan.push(word);
        try_all(day, plan, most, tally);
        plan.pop();
    }
}

#[test]
fn all_plans_of_up_to_eleven_words_of_days_like_day_m_answer_as_the_reference() {
    let mut tally = Tally::default();
    let rest_20_to_40 = (5, 0x6001_4028);
    let two_stops_fit = (1, 0x2000_006E);
    let tipping_takes_no_time = (8, 0x7000_0000);
    let nothing_at_stop_1 = (11, 0x8000_0000);
    let changes = [rest_20_to_40, two_stops_fit, tipping_takes_no_time, nothing_at_stop_1];
    for count in 0..=changes.len() {
        let mut words = DAY_M;
        for (index, word) in &changes[..count] {
            words[*index] = *word;
        }
        try_all(&LentDay::new(&words), &mut Vec::new(), 11, &mut tally);
    }
    println!("{tally}");
}

#[test]
fn plans_of_day_m_with_one_or_two_bits_turned_answer_as_the_reference() {
    let day = LentDay::new(&DAY_M);
    let mut tally = Tally::default();
    for plan in [&PLAN_M[..], &TWO_VEHICLES, &[A1, B1, C1, E, F2]] {
        let turned = |mut plan: Vec<u32>, bit: usize| {
            plan[bit / 32] ^= 1 << (bit % 32);
            plan
        };
        for first in 0..plan.len() * 32 {
            let once = turned(plan.to_vec(), first);
            check_alike(&day, &once, &mut tally);
            for second in 0..first {
                check_alike(&day, &turned(once.clone(), second), &mut tally);
            }
        }
    }
}

#[test]
fn each_word_of_a_large_plan_is_looked_at() {
    let mut random = Random::new(21);
    let mut tally = Tally::default();
    let day = usual_day(&mut random, 240, 15);
    let file = LentDay::new(&day.words());
    let plan = random_draft(&mut random, &day).words(&day);
    check_alike(&file, &plan, &mut tally);
    assert_eq!(tally.met["plans lawful with several vehicles"], 1);
    for index in 0..plan.len() {
        let mut turned = plan.clone();
        turned[index] ^= 1 << random.below(32);
        check_alike(&file, &turned, &mut tally);
        check_alike(&file, &plan[..index], &mut tally);
        let mut damaged = plan.clone();
        damage_plan(&mut random, &day, &mut damaged);
        check_alike(&file, &damaged, &mut tally);
    }
    println!("{tally}");
    assert!(tally.met["plans refused behind word 100"] >= 200);
}

#[test]
fn a_vehicle_is_found_by_its_whole_number() {
    assert_eq!(vehicle(&DAY_M, &TWO_VEHICLES, 1), Ok(&[A1, B1, C1, E][..]));
    assert_eq!(vehicle(&DAY_M, &TWO_VEHICLES, 2), Ok(&[A2, B2, C1, E][..]));
    assert_eq!(vehicle_place(&DAY_M, &TWO_VEHICLES, 2), Ok(4..8));
    let (day, mut tally) = (LentDay::new(&DAY_M), Tally::default());
    for number in (0..=1_000).chain([1 << 32, 1 << 32 | 1, 1 << 63 | 2, u64::MAX]) {
        for plan in [&TWO_VEHICLES[..], &PLAN_M, &[A1, B1, C1, E, F2], &[F1, F2], &[A1, B1], &[]] {
            vehicle_alike(&day, plan, number, &mut tally);
        }
    }
    assert_eq!(tally.met["vehicles found"], 4);
}

#[test]
fn each_vehicle_of_a_plan_of_240_is_found() {
    let mut day = usual_day(&mut Random::new(22), 240, 1);
    day.stops.iter_mut().for_each(|stop| stop.window = day.depot);
    let words = |count| [A1 - 1 + count, B1 - 1 + count, C1, E];
    let plan: Vec<u32> = (1..=240).flat_map(words).collect();
    let (file, mut tally) = (LentDay::new(&day.words()), Tally::default());
    check_alike(&file, &plan, &mut tally);
    for number in 0..=520 {
        vehicle_alike(&file, &plan, number, &mut tally);
    }
    assert_eq!(tally.met["vehicles found"], 240);
}

#[test]
fn rounds_of_each_two_plans_of_day_m_answer_as_the_reference() {
    let day = LentDay::new(&DAY_M);
    let mut tally = Tally::default();
    let long = [A1; 4_097];
    let mut plans: Vec<&[u32]> = FORMS.iter().chain(RULES).map(|worked| worked.2).collect();
    plans.push(&long);
    for first in &plans {
        for second in &plans {
            rounds_alike(&day, first, second, &mut tally);
        }
    }
    println!("{tally}");
    assert!(tally.met["same rounds"] >= 10 && tally.met["other rounds"] >= 10);
}

#[test]
fn random_and_damaged_plans_answer_as_the_reference() {
    let mut tallies = Tallies::default();
    for seed in 200..240 {
        let mut random = Random::new(seed);
        for _ in 0..1_000 {
            round(&mut random, &mut tallies);
        }
    }
    println!("{tallies}");
    for number in 6..=12 {
        assert!(tallies.check.refused[number] >= 100, "refusal {number} of a plan");
        assert!(tallies.vehicle.refused[number] >= 100, "refusal {number} before a vehicle");
        assert!(tallies.rounds.refused[number] >= 100, "refusal {number} of one of two plans");
    }
    assert!(tallies.vehicle.refused[15] >= 100);
    assert!(tallies.check.refused[1..6].iter().sum::<u64>() >= 100, "refused days");
    assert!(tallies.check.met["plans lawful with several vehicles"] >= 10_000);
    assert!(tallies.check.met["plans refused behind word 100"] >= 1_000);
    assert!(tallies.vehicle.met["vehicles found"] >= 1_000);
    for name in ["same plans", "same rounds", "other rounds"] {
        assert!(tallies.rounds.met[name] >= 1_000, "{name}");
    }
}
