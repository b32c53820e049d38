//! What can be refused, in words.

use std::error::Error;
use std::fmt;

/// Why a call gives no answer.
#[derive(Clone, Copy, Debug, PartialEq, Eq)]
pub struct Refusal {
    /// The number: 1 to 15, 17 or 18.
    pub number: u64,
    /// The index of the first word at fault, from 0, or what the sentence says it is. Of 17 and 18
    /// it is a byte of the text.
    pub place: u64,
}

impl fmt::Display for Refusal {
    /// One sentence for each number.
    fn fmt(&self, f: &mut fmt::Formatter<'_>) -> fmt::Result {
        let place = self.place;
        match self.number {
            1 => write!(f, "the day ends inside a word or has under 7 words: {place} whole ones"),
            2 => write!(f, "word {place} of the day has a wrong kind or a stray bit"),
            3 => write!(f, "word {place} of the day gives more than 240 stops or no tip"),
            4 => write!(f, "the day has {place} words, more or fewer than word 0 asks for"),
            5 => write!(f, "word {place} of the day has a value outside its range"),
            6 => write!(f, "the plan has more than {place} words"),
            7 => write!(f, "at word {place} the plan breaks the form of a plan"),
            8 => write!(f, "at word {place} of the plan a stop is met again or missing"),
            9 => write!(f, "at word {place} of the plan a vehicle has too many kg or stops"),
            10 => write!(f, "at word {place} of the plan a vehicle comes back with load"),
            11 => write!(f, "at word {place} of the plan a vehicle arrives after closing"),
            12 => write!(f, "at word {place} of the plan a rest is late, missing or the second"),
            13 => write!(f, "the neighbours asked for are {place}, which is not 1 to 50"),
            14 => write!(f, "a lent buffer is too short: {place} words are needed"),
            15 => write!(f, "the plan has no vehicle {place}"),
            17 => write!(f, "at byte {place} the text breaks the Solomon form"),
            18 => write!(f, "at byte {place} of the text a number or a stop is past its limit"),
            number => write!(f, "refusal {number} at {place} is none that is known"),
        }
    }
}

impl Error for Refusal {}

#[cfg(test)]
mod tests {
    use super::Refusal;
    use std::collections::HashSet;

    #[test]
    fn each_number_has_a_sentence_of_its_own_that_names_the_place() {
        let sentence = |number| Refusal { number, place: 7_654 }.to_string();
        let numbers = (1..=15).chain([17, 18]);
        let sentences: HashSet<String> = numbers.map(sentence).collect();
        assert_eq!(sentences.len(), 17);
        for sentence in sentences {
            assert!(sentence.contains("7654"), "{sentence}");
            assert!(!sentence.contains("none that is known"), "{sentence}");
        }
    }
}
