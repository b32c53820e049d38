//! Solomon instances brought in as days: change request Q-6 of document 02.
//!
//! The text is not read by a cursor that stops at the first fault. [`lines`] cuts the whole of it into
//! lines and fields, [`form`] collects every offence that there is, and the refusal is the least of
//! them by byte and number. Of a text without an offence [`day`] makes a [`crate::day::Day`], which
//! has its own way of being written as words.

mod day;
mod form;
mod lines;

use crate::Refusal;

/// The words that the text is brought in as, into a buffer of `room` words; or refusal 17 or 18,
/// "the earlier byte counts, at one byte 17", and then 14.
pub fn import(text: &[u8], room: usize) -> Result<Vec<u32>, Refusal> {
    let lines = lines::lines(text);
    if let Some(offence) = form::offences(&lines, text.len()).into_iter().min() {
        return Err(Refusal { number: offence.number, place: offence.byte as u64 });
    }
    let words = day::day(&lines).words();
    if words.len() > room {
        return Err(Refusal { number: 14, place: words.len() as u64 });
    }
    Ok(words)
}
