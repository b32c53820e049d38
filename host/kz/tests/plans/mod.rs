//! Days of any kind with a lawful plan of each, made up at random.

use kz::day::Day;
use kz::sheet::Sheet;
use reference::check::check;
use reference::day;
use reference::drafts::random_draft;
use reference::random::Random;
use reference::samples::random_size;
use reference::workdays::workday;

/// A day and a lawful plan of it as the second implementation makes them up, and as they are read.
pub type Case = (day::Day, Vec<u32>, Day, Sheet);

/// So many cases, which the seed determines.
pub fn cases(seed: u64, count: usize) -> impl Iterator<Item = Case> {
    let mut random = Random::new(seed);
    (0..count).map(move |_| {
        let (stops, tips) = random_size(&mut random);
        let made = workday(&mut random, stops, tips);
        let plan = random_draft(&mut random, &made).words(&made);
        assert!(check(&made, &plan).is_ok(), "a draft is lawful");
        let day = Day::of(&made.words());
        let sheet = Sheet::of(&day, &plan);
        (made, plan, day, sheet)
    })
}
