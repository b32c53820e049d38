//! Bytes and words: "32-bit words, low byte first".

use crate::Refusal;

/// The words that byte reading writes into a buffer of `room` words, or refusal 1 or 14.
pub fn read(bytes: &[u8], room: usize) -> Result<Vec<u32>, Refusal> {
    let mut words = Vec::new();
    let mut rest = bytes;
    while let [first, second, third, fourth, behind @ ..] = rest {
        let digits = [*fourth, *third, *second, *first];
        words.push(digits.iter().fold(0, |word, &byte| word * 256 + u32::from(byte)));
        rest = behind;
    }
    let whole = words.len() as u64;
    if !rest.is_empty() || whole < 7 {
        return Err(Refusal { number: 1, place: whole });
    }
    if words.len() > room {
        return Err(Refusal { number: 14, place: whole });
    }
    Ok(words)
}

/// The bytes of a file of these words.
pub fn write(words: &[u32]) -> Vec<u8> {
    words.iter().flat_map(|word| word.to_le_bytes()).collect()
}
