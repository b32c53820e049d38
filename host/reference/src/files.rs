//! Files to judge: days as they are, damaged days, and words of no meaning.

use crate::damage::damage;
use crate::random::Random;
use crate::samples::{random_day, random_size};
use crate::word::SIZE;

/// The words of some file, about one in four of them an accepted day.
pub fn random_words(random: &mut Random) -> Vec<u32> {
    if random.once_in(10) {
        return meaningless(random);
    }
    let (stops, tips) = random_size(random);
    let mut words = random_day(random, stops, tips).words();
    let times = random.one_of(&[0, 1, 1, 1, 1, 2]);
    for _ in 0..times {
        if !words.is_empty() {
            damage(random, &mut words);
        }
    }
    words
}

/// The bytes of some file. Half of them are no whole words, or have a byte replaced.
pub fn random_bytes(random: &mut Random) -> Vec<u8> {
    let mut bytes = crate::bytes::write(&random_words(random));
    match random.below(6) {
        0 => bytes.truncate(bytes.len().saturating_sub(1 + random.below(3))),
        1 => bytes.resize(bytes.len() + 1 + random.below(3), random.word() as u8),
        2 if !bytes.is_empty() => {
            let at = random.below(bytes.len());
            bytes[at] = random.word() as u8;
        }
        _ => {}
    }
    bytes
}

/// Words at random. Half of these files are as long as their first word asks for.
fn meaningless(random: &mut Random) -> Vec<u32> {
    let mut words: Vec<u32> = (0..random.below(80)).map(|_| random.word()).collect();
    if random.once_in(2) {
        let (stops, tips) = (random.below(9), 1 + random.below(15));
        let places = 1 + tips + stops;
        words.resize(7 + 2 * tips + 3 * stops + places * places, random.word());
        words[0] = SIZE.word([tips as u32, stops as u32]);
    }
    words
}
