//! The plain path: the judge, byte reading, the check, the greedy build, planning with trials and
//! bringing in a Solomon instance as ordinary Rust. Loops that leave at the first fault, no allocation
//! but of a few tables a planning call, no step taken for the sake of a benchmark. The library's times
//! are set beside it.

mod build;
mod check;
mod fields;
mod solomon;
mod trials;
mod trip;

use crate::Refusal;

pub use build::{build, build_accepted, Planned};
pub use check::{check, check_accepted};
pub use solomon::import_solomon;
pub use trials::{plan, plan_growing};

/// The stops and tips of an accepted day, or the first of refusals 1 to 5.
pub fn judge(day: &[u32]) -> Result<(usize, usize), Refusal> {
    if day.len() < 7 {
        return refuse(1, day.len());
    }
    let (stops, tips) = size(day[0])?;
    let places = 1 + tips + stops;
    let stops_at = 7 + 2 * tips;
    let legs_at = stops_at + 3 * stops;
    if day.len() != legs_at + places * places {
        return refuse(4, day.len());
    }
    head(day)?;
    for at in (7..stops_at).step_by(2) {
        visit(day, at)?;
    }
    for at in (stops_at..legs_at).step_by(3) {
        visit(day, at)?;
        number(day, at + 2, 8, 0, 100_000)?;
    }
    legs(day, legs_at, places)?;
    Ok((stops, tips))
}

/// Writes one word for each 4 bytes and gives their count, or refusal 1 or 14.
pub fn read_words(bytes: &[u8], words: &mut [u32]) -> Result<usize, Refusal> {
    let count = bytes.len() / 4;
    if !bytes.len().is_multiple_of(4) || count < 7 {
        return refuse(1, count);
    }
    if words.len() < count {
        return refuse(14, count);
    }
    for (word, four) in words.iter_mut().zip(bytes.chunks_exact(4)) {
        *word = u32::from_le_bytes([four[0], four[1], four[2], four[3]]);
    }
    Ok(count)
}

fn refuse<T>(number: u64, place: usize) -> Result<T, Refusal> {
    Err(Refusal { number, place: place as u64 })
}

fn size(word: u32) -> Result<(usize, usize), Refusal> {
    if word >> 12 != 0x1_0000 {
        return refuse(2, 0);
    }
    let tips = (word >> 8 & 15) as usize;
    let stops = (word & 255) as usize;
    if tips == 0 || stops > 240 {
        return refuse(3, 0);
    }
    Ok((stops, tips))
}

/// Words 1 to 6.
fn head(day: &[u32]) -> Result<(), Refusal> {
    number(day, 1, 2, 1, 100_000)?;
    number(day, 2, 3, 1, 1_000_000)?;
    number(day, 3, 4, 1, 240)?;
    window(day, 4, 5)?;
    window(day, 5, 6)?;
    number(day, 6, 7, 0, 240)
}

/// The window and the service minutes of a tip or a stop.
fn visit(day: &[u32], at: usize) -> Result<(), Refusal> {
    window(day, at, 5)?;
    number(day, at + 1, 7, 0, 240)
}

fn number(day: &[u32], at: usize, kind: u32, low: u32, high: u32) -> Result<(), Refusal> {
    let word = day[at];
    if word >> 27 != kind << 1 {
        return refuse(2, at);
    }
    let value = word & 0x07FF_FFFF;
    if value < low || value > high {
        return refuse(5, at);
    }
    Ok(())
}

fn window(day: &[u32], at: usize, kind: u32) -> Result<(), Refusal> {
    let word = day[at];
    if word >> 24 != kind << 4 {
        return refuse(2, at);
    }
    let opening = word >> 12 & 0xFFF;
    let closing = word & 0xFFF;
    if opening > closing || closing > 1_440 {
        return refuse(5, at);
    }
    Ok(())
}

fn legs(day: &[u32], legs_at: usize, places: usize) -> Result<(), Refusal> {
    for (from, row) in day[legs_at..].chunks_exact(places).enumerate() {
        for (to, &word) in row.iter().enumerate() {
            if word >> 28 != 9 {
                return refuse(2, legs_at + from * places + to);
            }
            let minutes = word >> 16 & 0xFFF;
            let distance = word & 0xFFFF;
            if minutes > 1_440 || (from == to && (minutes != 0 || distance != 0)) {
                return refuse(5, legs_at + from * places + to);
            }
        }
    }
    Ok(())
}
