//! Compares the library with the second implementation on random files, plans, days to plan and texts
//! to bring in, for some seconds.

use std::error::Error;

use reference::random::Random;
use reference::run::Run;

#[path = "../tests/compare/builds.rs"]
mod builds;
#[path = "../tests/compare/mod.rs"]
mod compare;
#[path = "../tests/compare/days.rs"]
mod days;
#[path = "../tests/compare/plans.rs"]
mod plans;
#[path = "../tests/compare/texts.rs"]
mod texts;
#[path = "../tests/compare/trials.rs"]
mod trials;
#[path = "../tests/compare/written.rs"]
mod written;

fn main() -> Result<(), Box<dyn Error>> {
    let run = Run::told(std::env::args().skip(1))?;
    let mut random = Random::new(run.seed);
    let mut tally = compare::Tally::default();
    let mut tallies = plans::Tallies::default();
    let mut built = compare::Tally::default();
    let mut planned = compare::Tally::default();
    let mut brought_in = compare::Tally::default();
    while run.goes_on() {
        days::round(&mut random, &mut tally);
        plans::round(&mut random, &mut tallies);
        builds::round(&mut random, &mut built);
        trials::round(&mut random, &mut planned);
        texts::round(&mut random, &mut brought_in);
    }
    println!("days: {tally}\n{tallies}\nbuild: {built}\nplan: {planned}\nimport: {brought_in}");
    Ok(())
}
