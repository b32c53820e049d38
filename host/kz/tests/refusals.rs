//! The refusals of days, plans and Solomon instances damaged at random: each has a sentence that is
//! not the general one for its number alone, and the word or byte at fault is named.

#[allow(dead_code)]
#[path = "damage/bytes.rs"]
mod bytes;

use kazhuvendi::Refusal;
use kz::harbour;
use kz::inputs::{GivenDay, GivenPlan, Named};
use kz::refusals::{of_day, of_instance, of_plans, Refused, Spot};
use reference::drafts::random_draft;
use reference::files::random_words;
use reference::plan_damage::damage_plan;
use reference::random::Random;
use reference::samples::random_size;
use reference::workdays::workday;

const ROUNDS: usize = 3_000;

fn file(name: &str) -> Named {
    Named { name: name.to_string(), bytes: vec![] }
}

fn word(place: u64, file: &str) -> Spot {
    Spot::Word { word: place as usize, line: None, file: file.to_string() }
}

#[test]
fn every_refused_day_has_a_sentence_of_its_own() {
    let mut random = Random::new(11);
    let mut met = [0; 16];
    for _ in 0..ROUNDS {
        let words = random_words(&mut random);
        let Err(refusal) = kazhuvendi::judge(&words) else { continue };
        let refused = of_day(refusal, &words, &file("day"));
        assert_eq!(refused.refusal, refusal);
        assert_ne!(refused.sentence, refusal.to_string());
        let spot = match refusal.number {
            2 | 3 | 5 => word(refusal.place, "day"),
            _ => Spot::File("day".into()),
        };
        assert_eq!(refused.spot, Some(spot), "{}", refused.sentence);
        met[refusal.number as usize] += 1;
    }
    assert!(met[1..=5].iter().all(|count| *count > 5), "{met:?}");
}

#[test]
fn every_refused_plan_has_a_sentence_of_its_own() {
    let mut random = Random::new(12);
    let mut met = [0; 16];
    for _ in 0..ROUNDS {
        let (stops, tips) = random_size(&mut random);
        let day = workday(&mut random, stops.min(30), tips);
        let mut plan = random_draft(&mut random, &day).words(&day);
        damage_plan(&mut random, &day, &mut plan);
        let words = day.words();
        let Err(refusal) = kazhuvendi::check(&words, &plan) else { continue };
        let given = GivenDay::of(words, None, &file("day")).expect("the day is accepted");
        let plan = GivenPlan { words: plan, file: file("plan"), warning: None };
        assert_names(&of_plans(refusal, &given, &[&plan]), &plan.words, refusal);
        met[refusal.number as usize] += 1;
    }
    assert!(met[7..=12].iter().all(|count| *count > 5), "{met:?}");
}

/// The word that is wrong is named, or the plan's end is; and so is the stop or tip that the word
/// is about, where it is one of the day's.
fn assert_names(refused: &Refused, plan: &[u32], refusal: Refusal) {
    let sentence = &refused.sentence;
    assert_ne!(sentence, &refusal.to_string());
    let at_fault = plan.get(refusal.place as usize);
    let spot = match at_fault {
        _ if refusal.number == 6 => Spot::File("plan".into()),
        Some(_) => word(refusal.place, "plan"),
        None => Spot::End("plan".into()),
    };
    assert_eq!(refused.spot, Some(spot), "{refusal:?}: {sentence}");
    if let (Some(word), 8..=11) = (at_fault, refusal.number) {
        let named = match word >> 28 {
            0xB | 0xF => format!("stop {} ", word & 0xFF),
            0xC => format!("tip {} ", word & 0xFF),
            _ => "vehicle ".to_string(),
        };
        assert!(sentence.starts_with(&named), "{refusal:?}: {sentence}");
    }
}

#[test]
fn every_refused_instance_has_a_sentence_of_its_own() {
    let mut random = Random::new(13);
    let mut met = [0; 19];
    for _ in 0..ROUNDS {
        let mut file = file("instance");
        file.bytes = harbour::sample_text().into_bytes();
        bytes::damage(&mut random, &mut file.bytes, bytes::Piece::Line);
        let Err(refusal) = kazhuvendi::import_solomon(&file.bytes, &mut [0; 4_000]) else {
            continue;
        };
        let refused = of_instance(refusal, &file);
        assert_eq!(refused.refusal, refusal);
        assert_ne!(refused.sentence, refusal.to_string(), "{}", file.bytes.escape_ascii());
        let ends = file.bytes[..refusal.place as usize].split(|byte| *byte == b'\n');
        assert_eq!(refused.spot.as_ref().and_then(Spot::line), Some(ends.count()));
        met[refusal.number as usize] += 1;
    }
    assert!(met[17] > 500 && met[18] > 100, "{met:?}");
}
