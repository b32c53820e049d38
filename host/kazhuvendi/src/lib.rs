//! A proved planner for commercial waste rounds, called from safe Rust.
//!
//! A day file is read from bytes into words by [`read_words`] and judged by [`judge`]; a Solomon
//! instance is brought in as a day by [`import_solomon`]. A plan of a day is written by [`build`], or
//! by [`plan`], which goes on to make it shorter, and checked by [`check`]; of a lawful plan
//! [`vehicle`] gives one vehicle's part, and [`same_rounds`] compares two. Each call gives its answer
//! or a [`Refusal`], for any input whatever, and a refusal changes no buffer. Nothing is allocated:
//! the caller lends the buffers.
//!
//! ```
//! let bytes = std::fs::read("../../examples/day-m.day")?;
//! let mut day = vec![0; bytes.len() / 4];
//! let count = kazhuvendi::read_words(&bytes, &mut day)?;
//! let size = kazhuvendi::judge(&day[..count])?;
//! assert_eq!((size.stops, size.tips), (2, 1));
//!
//! // One vehicle: stop 1, the tip, a rest, stop 2, the tip, back.
//! let plan = [0xA0000001, 0xB0000001, 0xC0000001, 0xD0000000, 0xB0000002, 0xC0000001, 0xE0000000];
//! let totals = kazhuvendi::check(&day, &plan)?;
//! assert_eq!((totals.distance, totals.vehicles, totals.served), (35, 1, 2));
//! # Ok::<(), Box<dyn std::error::Error>>(())
//! ```

mod build;
mod plan;
mod raw;
mod refusal;
mod solomon;
mod trials;

pub use build::{build, Planned};
pub use plan::{check, same_rounds, vehicle, vehicle_place, Totals};
pub use refusal::Refusal;
pub use solomon::import_solomon;
pub use trials::{plan, plan_growing};

/// How large an accepted day is.
#[derive(Clone, Copy, Debug, PartialEq, Eq)]
pub struct Size {
    /// The stops, 0 to 240.
    pub stops: usize,
    /// The tips, 1 to 15.
    pub tips: usize,
}

/// Reads bytes as 32-bit words, low byte first, into the beginning of `words`, and gives how many
/// words were written. The words behind them stay as they were. No day is judged.
///
/// # Errors
///
/// 1 where the bytes are no whole words or fewer than 7 words, 14 where `words` is too short.
///
/// ```
/// let mut words = [9; 8];
/// assert_eq!(kazhuvendi::read_words(&[1; 28], &mut words), Ok(7));
/// assert_eq!(words, [0x01010101, 0x01010101, 0x01010101, 0x01010101, 0x01010101, 0x01010101, 0x01010101, 9]);
///
/// let refusal = kazhuvendi::read_words(&[1; 28], &mut words[..6]).unwrap_err();
/// assert_eq!((refusal.number, refusal.place), (14, 7));
/// ```
pub fn read_words(bytes: &[u8], words: &mut [u32]) -> Result<usize, Refusal> {
    let mut out = [0; 6];
    raw::read_words(bytes, words, &mut out);
    match out {
        [0, count, ..] => Ok(count as usize),
        [number, place, ..] => Err(Refusal { number, place }),
    }
}

/// Judges a day file: gives its size where it is accepted.
///
/// # Errors
///
/// The first of refusals 1 to 5 that applies.
///
/// ```
/// // A day with one tip and no stop: two places, so four legs.
/// let mut day = [
///     0x10000100, 0x20000064, 0x300000C8, 0x40000005, 0x50000064, 0x6001E03C, 0x7000000A,
///     0x50000064, 0x70000005, 0x90000000, 0x900A0007, 0x900A0007, 0x90000000,
/// ];
/// assert_eq!(kazhuvendi::judge(&day), Ok(kazhuvendi::Size { stops: 0, tips: 1 }));
///
/// // The tip may not ask for 241 minutes.
/// day[8] = 0x700000F1;
/// let refusal = kazhuvendi::judge(&day).unwrap_err();
/// assert_eq!((refusal.number, refusal.place), (5, 8));
/// assert_eq!(refusal.to_string(), "word 8 of the day has a value outside its range");
/// ```
pub fn judge(day: &[u32]) -> Result<Size, Refusal> {
    let mut out = [0; 6];
    raw::judge(day, &mut out);
    match out {
        [0, stops, tips, ..] => Ok(Size { stops: stops as usize, tips: tips as usize }),
        [number, place, ..] => Err(Refusal { number, place }),
    }
}
