//! The sample instance: the committed file is what the generator gives, and planning has something to
//! do on it.

use kz::harbour::sample_text;
use kz::solomon;

#[test]
fn the_committed_file_is_what_the_generator_gives() {
    let path = format!("{}/../../examples/harbour.txt", env!("CARGO_MANIFEST_DIR"));
    assert_eq!(std::fs::read_to_string(path).expect("the sample is there"), sample_text());
    assert!(solomon::is_instance(sample_text().as_bytes()));
}

#[test]
fn the_instance_is_worth_planning() {
    let words = solomon::read(sample_text().as_bytes()).expect("an instance").words;
    let size = kazhuvendi::judge(&words).expect("an accepted day");
    assert_eq!((size.stops, size.tips), (48, 1));
    let (mut plan, mut work) = (vec![0; 5 * size.stops], vec![0; 5 * size.stops]);
    let greedy = kazhuvendi::build(&words, &mut plan).expect("an accepted day");
    assert_eq!(greedy.left_out, 0);
    let settled = kazhuvendi::plan(&words, 50, u64::MAX, &mut plan, &mut work).expect("a plan");
    let (before, after) = (greedy.distance, settled.distance);
    assert!(settled.settled && after * 100 < before * 90, "trials save a tenth: {before}, {after}");
}
