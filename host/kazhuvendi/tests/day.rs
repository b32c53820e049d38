//! The day file: the library's answers beside those of the second implementation and those that
//! were worked out by hand.

mod compare;
#[path = "compare/days.rs"]
mod days;

use compare::Tally;
use days::{expected_size, judge_alike, read_alike, round};
use kazhuvendi::{judge, Refusal, Size};
use reference::random::Random;
use reference::samples::random_day;
use reference::worked::{changed, CHANGES, DAY_M};

#[test]
fn day_m_has_two_stops_and_one_tip() {
    assert_eq!(judge(&DAY_M), Ok(Size { stops: 2, tips: 1 }));
}

#[test]
fn each_range_is_accepted_at_its_limits_and_refused_past_them() {
    for change in CHANGES {
        let (words, expected) = changed(change);
        let refused = judge(&words).err().map(|refusal| (refusal.number, refusal.place));
        assert_eq!(refused, expected, "{change:X?}");
    }
}

/// Words that are at fault in their kind, in their value, and in both, with what is refused then.
fn faults(index: usize) -> [(u32, u64); 3] {
    let to_itself = [15, 20, 25, 30].contains(&index);
    let kind = DAY_M[index] & 0xF000_0000;
    let value = match kind >> 28 {
        2 | 8 => 100_001,
        3 => 1_000_001,
        4 | 7 => 241,
        9 if to_itself => 1,
        9 => 1_441 << 16,
        _ => 1_441,
    };
    let other = kind ^ 0x8000_0000;
    [(DAY_M[index] - kind + other, 2), (kind + value, 5), (other + value, 2)]
}

fn assert_the_earlier_is_refused(earlier: usize, later: usize) {
    for (here, number) in faults(earlier) {
        for (there, _) in faults(later) {
            let mut words = DAY_M;
            (words[earlier], words[later]) = (here, there);
            assert_eq!(judge(&words), Err(Refusal { number, place: earlier as u64 }));
        }
    }
}

#[test]
fn of_two_words_at_fault_the_earlier_is_refused_for_its_own_fault() {
    for later in 2..DAY_M.len() {
        for earlier in 1..later {
            assert_the_earlier_is_refused(earlier, later);
        }
    }
}

fn turned(mut words: [u32; 31], bit: usize) -> [u32; 31] {
    words[bit / 32] ^= 1 << (bit % 32);
    words
}

#[test]
fn day_m_with_one_or_two_bits_turned_answers_as_the_reference() {
    for first in 0..DAY_M.len() * 32 {
        let once = turned(DAY_M, first);
        assert_eq!(judge(&once), expected_size(&once), "bit {first}");
        for second in 0..first {
            let twice = turned(once, second);
            assert_eq!(judge(&twice), expected_size(&twice), "bits {first} and {second}");
        }
    }
}

#[test]
fn a_day_of_each_size_is_accepted_at_its_own_length_alone() {
    let mut random = Random::new(3);
    let mut tally = Tally::default();
    for size in 0..241 * 15 {
        let (stops, tips) = (size / 15, 1 + size % 15);
        let mut words = random_day(&mut random, stops, tips).words();
        assert_eq!(judge(&words), Ok(Size { stops, tips }));
        judge_alike(&words[..words.len() - 1], &mut tally);
        words.push(0x9000_0000);
        judge_alike(&words, &mut tally);
    }
    assert_eq!(tally.to_string(), "refusal 4 7230 times");
}

#[test]
fn each_length_from_0_to_70_000_words_answers_as_the_reference() {
    let mut words = random_day(&mut Random::new(4), 240, 15).words();
    words.resize(70_000, 0x9000_0000);
    for length in 0..=words.len() {
        assert_eq!(judge(&words[..length]), expected_size(&words[..length]), "{length} words");
    }
}

#[test]
fn each_word_of_a_large_day_is_looked_at() {
    let mut random = Random::new(5);
    let mut words = random_day(&mut random, 240, 15).words();
    for index in (1..words.len()).filter(|index| index % 61 == 0 || *index < 800) {
        let right = words[index];
        words[index] ^= 1 << random.below(32);
        assert_eq!(judge(&words), expected_size(&words), "word {index}");
        words[index] = right ^ 1 << (28 + random.below(4));
        assert_eq!(judge(&words), Err(Refusal { number: 2, place: index as u64 }));
        words[index] = right;
    }
}

#[test]
fn short_files_of_each_length_are_read_into_each_room_as_the_reference_reads_them() {
    let mut random = Random::new(6);
    let mut tally = Tally::default();
    let file: Vec<u8> = (0..150).map(|_| random.word() as u8).collect();
    for length in 0..=file.len() {
        for room in 0..=40 {
            read_alike(&file[..length], room, &mut random, &mut tally);
        }
    }
}

#[test]
fn long_files_are_read_as_the_reference_reads_them() {
    let mut random = Random::new(7);
    let mut tally = Tally::default();
    let file: Vec<u8> = (0..280_003).map(|_| random.word() as u8).collect();
    for length in (0..=file.len()).rev().step_by(9_973) {
        for room in [0, length / 8, (length / 4).saturating_sub(1), length / 4, length / 4 + 100] {
            read_alike(&file[..length], room, &mut random, &mut tally);
        }
    }
}

#[test]
fn random_and_damaged_files_answer_as_the_reference() {
    let mut tally = Tally::default();
    for seed in 100..140 {
        let mut random = Random::new(seed);
        for _ in 0..1_000 {
            round(&mut random, &mut tally);
        }
    }
    println!("{tally}");
    assert!(tally.met["days accepted"] >= 100 && tally.met["files read"] >= 100);
    for number in [1, 2, 3, 4, 5, 14] {
        assert!(tally.refused[number] >= 100, "refusal {number}");
    }
}
