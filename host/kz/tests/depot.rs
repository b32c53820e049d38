//! The sample depot: the committed files are what the generator gives, and the day is one on which
//! planning has something to do.

use std::fs;

use kz::day::Day;
use kz::depot::{sample, sample_text};
use kz::sheet::{Act, Sheet};
use kz::text::parse;

fn committed(name: &str) -> Vec<u8> {
    let path = format!("{}/../../examples/{name}", env!("CARGO_MANIFEST_DIR"));
    fs::read(&path).unwrap_or_else(|error| panic!("{path}: {error}"))
}

#[test]
fn the_committed_files_are_what_the_generator_gives() {
    assert_eq!(String::from_utf8(committed("depot.txt")), Ok(sample_text()));
    let mut words = vec![0; 1 << 14];
    let count = kazhuvendi::read_words(&committed("depot.day"), &mut words).expect("words");
    assert_eq!(words[..count], sample().words);
    assert_eq!(parse(&sample_text()), Ok(sample()));
}

/// Greedy distance, settled distance and the settled plan.
fn planned(words: &[u32], stops: usize) -> (u64, u64, Vec<u32>) {
    let (mut plan, mut work) = (vec![0; 5 * stops], vec![0; 5 * stops]);
    let greedy = kazhuvendi::build(words, &mut plan).expect("an accepted day");
    let planned = kazhuvendi::plan(words, 50, u64::MAX, &mut plan, &mut work).expect("a plan");
    assert!(planned.settled);
    plan.truncate(planned.words);
    (greedy.distance, planned.distance, plan)
}

#[test]
fn the_day_is_worth_planning() {
    let words = sample().words;
    let size = kazhuvendi::judge(&words).expect("an accepted day");
    assert_eq!((size.stops, size.tips), (60, 3));
    let (greedy, settled, plan) = planned(&words, size.stops);
    assert!(settled * 100 < greedy * 90, "trials save a tenth: {greedy} and {settled}");
    let sheet = Sheet::of(&Day::of(&words), &plan);
    assert!((4..=7).contains(&sheet.rounds.len()) && sheet.left_out.is_empty());
    let entries = || sheet.rounds.iter().flat_map(|round| &round.entries);
    assert!(entries().any(|entry| entry.act == Act::Rest), "somebody has lunch on the way");
    let tips_used = (1..=3).filter(|tip| entries().any(|entry| entry.act == Act::Tip(*tip)));
    assert!(tips_used.count() >= 2);
}
