//! Ways in which the words of a day file can be damaged. A damaged day may still be accepted:
//! what it then is, the judges have to agree on.

use crate::day::Day;
use crate::random::Random;
use crate::word::{DAY_LOAD, DAY_STOPS, LEG, LOAD, MINUTES, QUANTITY, REST, SIZE, WINDOW};

/// The words of a day, once in twenty times damaged.
pub fn file_of(random: &mut Random, day: &Day) -> Vec<u32> {
    let mut words = day.words();
    if random.once_in(20) {
        damage(random, &mut words);
    }
    words
}

/// Damages the words of a day file in one way, chosen at random. There is at least one word.
pub fn damage(random: &mut Random, words: &mut Vec<u32>) {
    match random.below(10) {
        0 => turn_bits(random, words, 1),
        1 => {
            let bits = 2 + random.below(4);
            turn_bits(random, words, bits);
        }
        2 => {
            let at = somewhere(random, words);
            words[at] = random.word();
        }
        3 => cut(random, words),
        4 => lengthen(random, words),
        5 => replace_size(random, words),
        6 => {
            let at = somewhere(random, words);
            to_a_limit(random, words, at);
        }
        7 => leg_to_itself(random, words),
        8 => {
            let (here, there) = (somewhere(random, words), somewhere(random, words));
            words.swap(here, there);
        }
        _ => two_faults(random, words),
    }
}

/// The index of a word; one before the legs as often as one of all.
fn somewhere(random: &mut Random, words: &[u32]) -> usize {
    let legs = words.iter().position(|word| word >> 28 == 9);
    match legs {
        Some(before) if before > 0 && random.once_in(2) => random.below(before),
        _ => random.below(words.len()),
    }
}

fn turn_bits(random: &mut Random, words: &mut [u32], bits: usize) {
    for _ in 0..bits {
        let at = somewhere(random, words);
        words[at] ^= 1 << random.below(32);
    }
}

/// Half of the cuts leave less than a day can have.
fn cut(random: &mut Random, words: &mut Vec<u32>) {
    let most = if random.once_in(2) { 8 } else { words.len() };
    words.truncate(random.below(most));
}

/// Half of the lengthened days have one word more.
fn lengthen(random: &mut Random, words: &mut Vec<u32>) {
    let more = if random.once_in(2) { 1 } else { 1 + random.below(600) };
    for _ in 0..more {
        let word = if random.once_in(2) { LEG.word([0, 0]) } else { random.word() };
        words.push(word);
    }
}

/// Word 0 with other stops and tips, or with a bit of it turned.
fn replace_size(random: &mut Random, words: &mut [u32]) {
    let tips = random.within(0..=15);
    words[0] = match random.below(4) {
        0 => words[0] ^ 1 << random.below(32),
        1 => SIZE.word([tips, random.one_of(&[0, 239, 240, 241, 255])]),
        2 => SIZE.word([0, words[0] & 255]),
        _ => SIZE.word([tips, random.within(0..=255)]),
    };
}

/// A word of the same kind whose value is a limit of its range or just outside it.
fn to_a_limit(random: &mut Random, words: &mut [u32], at: usize) {
    let windows = [[0, 0], [0, 1_440], [1_440, 1_440], [1_440, 1_441], [1_441, 1_441], [1, 0]];
    words[at] = match words[at] >> 28 {
        2 => LOAD.word([random.one_of(&[0, 1, 100_000, 100_001])]),
        3 => DAY_LOAD.word([random.one_of(&[0, 1, 1_000_000, 1_000_001])]),
        4 => DAY_STOPS.word([random.one_of(&[0, 1, 240, 241])]),
        5 => WINDOW.word(random.one_of(&windows)),
        6 => REST.word(random.one_of(&windows)),
        7 => MINUTES.word([random.one_of(&[0, 240, 241])]),
        8 => QUANTITY.word([random.one_of(&[0, 100_000, 100_001])]),
        9 => LEG.word([random.one_of(&[0, 1_440, 1_441]), random.one_of(&[0, 1, 65_535])]),
        _ => words[at],
    };
}

/// A leg from a place to itself that has minutes, a distance or both. The places are told by the
/// words that are legs, of which a day has a square number.
fn leg_to_itself(random: &mut Random, words: &mut [u32]) {
    let legs = words.iter().rev().take_while(|&&word| word >> 28 == 9).count();
    let places = legs.isqrt().max(1);
    let place = random.below(places);
    let at = (words.len() - legs + place * (places + 1)).min(words.len() - 1);
    words[at] = LEG.word(random.one_of(&[[0, 1], [1, 0], [1_440, 65_535]]));
}

/// A word of the wrong kind and a word at a limit, either of them first.
fn two_faults(random: &mut Random, words: &mut [u32]) {
    let (kind, limit) = (somewhere(random, words), somewhere(random, words));
    to_a_limit(random, words, limit);
    words[kind] ^= 1 << (28 + random.below(4));
}
