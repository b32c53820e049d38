//! How long a run over random days goes on, and by which seed.

use std::error::Error;
use std::time::{Duration, Instant, SystemTime};

/// What a program was told on its command line: seconds, then a seed.
#[derive(Clone, Copy, Debug)]
pub struct Run {
    /// When it ends.
    pub end: Instant,
    /// From the clock where none is given; it is printed, so that a run can be repeated.
    pub seed: u64,
}

impl Run {
    /// Reads the words of the command line behind the program's name.
    pub fn told(mut words: impl Iterator<Item = String>) -> Result<Run, Box<dyn Error>> {
        let seconds = words.next().ok_or("give the seconds to run for")?.parse()?;
        let seed = match words.next() {
            Some(seed) => seed.parse()?,
            None => SystemTime::now().duration_since(SystemTime::UNIX_EPOCH)?.as_nanos() as u64,
        };
        println!("seed {seed}");
        Ok(Run { end: Instant::now() + Duration::from_secs(seconds), seed })
    }

    /// Whether there is time left.
    pub fn goes_on(&self) -> bool {
        Instant::now() < self.end
    }
}
