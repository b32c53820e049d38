//! Texts with damaged bytes.

use crate::random::Random;

/// Bytes that mean something, or look as if they did: vertical tab, form feed and the blanks of
/// other character sets are none of the three blanks.
const BYTES: &[u8] = b"\n\n\r \t\x0b\x0c\0\x85\xa0\xff0019aAV-+.,";

/// Damages a text in one way, chosen at random, or in two.
pub fn put_in(random: &mut Random, text: &mut Vec<u8>) {
    for _ in 0..random.one_of(&[1, 1, 1, 2]) {
        if !text.is_empty() {
            put_in_one(random, text);
        }
    }
}

fn put_in_one(random: &mut Random, text: &mut Vec<u8>) {
    let at = random.below(text.len());
    match random.below(9) {
        0 => text[at] ^= 1 << random.below(8),
        1 => text[at] = random.one_of(BYTES),
        2 => drop(text.remove(at)),
        3 => text.insert(at, random.one_of(BYTES)),
        4 => text.truncate(at),
        5 => text.extend((0..1 + random.below(4)).map(|_| random.one_of(BYTES))),
        6 => another_end(random, text, b' '),
        7 => another_end(random, text, b'\r'),
        _ => text.iter_mut().filter(|byte| **byte == b'\n').for_each(|byte| *byte = b'\r'),
    }
}

/// One of the line feeds replaced: two lines become one.
fn another_end(random: &mut Random, text: &mut [u8], by: u8) {
    let ends: Vec<usize> = (0..text.len()).filter(|&at| text[at] == b'\n').collect();
    if !ends.is_empty() {
        text[random.one_of(&ends)] = by;
    }
}
