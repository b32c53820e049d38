//! Ways in which the words of a plan can be damaged. A damaged plan may still be lawful.

use crate::day::Day;
use crate::plan::Word;
use crate::random::Random;

/// Damages the words of a plan of this day in one way, chosen at random.
pub fn damage_plan(random: &mut Random, day: &Day, words: &mut Vec<u32>) {
    if words.is_empty() {
        words.push(random_plan_word(random, day));
        return;
    }
    match random.below(16) {
        0 => {
            let (here, there) = (somewhere(random, words), somewhere(random, words));
            words.swap(here, there);
        }
        1 => replace(random, words, |random, _| random_plan_word(random, day)),
        2 => replace(random, words, |random, word| word ^ 1 << random.below(32)),
        3 => replace(random, words, one_off),
        4 => replace(random, words, |random, word| random.within(0xA..=0xF) << 28 | word & 0xFF),
        5 => {
            let at = somewhere(random, words);
            words.remove(at);
        }
        6 => double(random, words),
        7 => {
            let at = somewhere(random, words);
            words.insert(at, random_plan_word(random, day));
        }
        8 => words.truncate(somewhere(random, words)),
        9 => words.push(random_plan_word(random, day)),
        10 => mix_left_out(random, day, words),
        11 => remove_one(random, words, |word| matches!(word, Word::Tip(_))),
        12 => remove_one(random, words, |word| word == Word::Rest),
        13 => {
            let at = somewhere(random, words);
            words.insert(at, Word::Rest.word());
        }
        14 => exchange_stops(random, words),
        _ => lengthen(random, words),
    }
}

/// The index of a word; one of the second half as often as one of all.
fn somewhere(random: &mut Random, words: &[u32]) -> usize {
    let first = if random.once_in(2) { words.len() / 2 } else { 0 };
    first + random.below(words.len() - first)
}

fn random_plan_word(random: &mut Random, day: &Day) -> u32 {
    let stop = random.within(0..=day.stops.len() as u32 + 1);
    let tip = random.within(0..=day.tips.len() as u32 + 1);
    let word = match random.below(8) {
        0 => Word::Vehicle(random.within(0..=4)),
        1 | 2 => Word::Stop(stop),
        3 => Word::Tip(tip),
        4 => Word::Rest,
        5 => Word::Back,
        6 => Word::LeftOut(stop),
        _ => return random.word(),
    };
    word.word()
}

fn replace(random: &mut Random, words: &mut [u32], by: impl Fn(&mut Random, u32) -> u32) {
    let at = somewhere(random, words);
    words[at] = by(random, words[at]);
}

fn one_off(random: &mut Random, word: u32) -> u32 {
    random.one_of(&[word.wrapping_add(1), word.wrapping_sub(1)])
}

/// A word stands again, beside itself or elsewhere.
fn double(random: &mut Random, words: &mut Vec<u32>) {
    let from = somewhere(random, words);
    let to = if random.once_in(2) { from } else { somewhere(random, words) };
    words.insert(to, words[from]);
}

/// One stop more left out, or two of those exchanged, so that they rise or do not.
fn mix_left_out(random: &mut Random, day: &Day, words: &mut Vec<u32>) {
    let first = words.iter().position(|word| word >> 28 == 0xF).unwrap_or(words.len());
    let left_out = &mut words[first..];
    if left_out.len() > 1 && random.once_in(2) {
        left_out.swap(random.below(left_out.len()), random.below(left_out.len()));
        return;
    }
    let more = Word::LeftOut(random.within(0..=day.stops.len() as u32)).word();
    let rising = left_out.iter().take_while(|word| **word < more).count();
    words.insert(first + rising, more);
}

/// Removes one of the words that are asked for, if there is any.
fn remove_one(random: &mut Random, words: &mut Vec<u32>, asked: impl Fn(Word) -> bool) {
    let is_asked = |at: &usize| Word::read(words[*at]).is_some_and(&asked);
    let found: Vec<usize> = (0..words.len()).filter(is_asked).collect();
    if !found.is_empty() {
        words.remove(random.one_of(&found));
    }
}

/// Two served stops stand for one another.
fn exchange_stops(random: &mut Random, words: &mut [u32]) {
    let stops: Vec<usize> = (0..words.len()).filter(|at| words[*at] >> 28 == 0xB).collect();
    if !stops.is_empty() {
        words.swap(random.one_of(&stops), random.one_of(&stops));
    }
}

/// The plan gets about as many words as it may have, or more, by a word that stands again and
/// again. A tip is the word that may.
fn lengthen(random: &mut Random, words: &mut Vec<u32>) {
    let length = random.one_of(&[600, 4_095, 4_096, 4_097, 4_098, 6_000]);
    let tip = words.iter().position(|word| word >> 28 == 0xC);
    let at = tip.unwrap_or_else(|| somewhere(random, words));
    let more = length - words.len().min(length);
    words.splice(at..at, vec![words[at]; more]);
}
