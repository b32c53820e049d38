//! Buffers that a plan is written into.

use kazhuvendi::Planned;
use reference::random::Random;

/// What stands in a buffer before.
pub fn words_of_no_meaning(random: &mut Random, room: usize) -> Vec<u32> {
    (0..room).map(|_| random.word()).collect()
}

/// Writes a plan of a day of so many stops where it should stand: zero from its end to 5n, as before
/// beyond.
pub fn write_plan(buffer: &mut [u32], words: &[u32], stops: usize) {
    buffer[..5 * stops].fill(0);
    buffer[..words.len()].copy_from_slice(words);
}

/// The library's own check has to pass what it wrote.
pub fn assert_lawful(day: &[u32], plan: &[u32], planned: Planned) {
    let totals = kazhuvendi::check(day, plan).expect("a plan that was written is lawful");
    assert_eq!(totals.distance, planned.distance);
    let left_out = plan.iter().filter(|word| **word >> 28 == 0xF).count();
    assert_eq!(left_out, planned.left_out);
}
