//! Day files: both get the same words or bytes.

use kazhuvendi::{Refusal, Size};
use reference::lent::{random_room, Lent};
use reference::random::Random;
use reference::{bytes, day, files};

use crate::compare::{as_refusal, Tally};

/// A file of random words and one of random bytes.
pub fn round(random: &mut Random, tally: &mut Tally) {
    judge_alike(&files::random_words(random), tally);
    let file = files::random_bytes(random);
    let room = random_room(random, file.len() / 4);
    read_alike(&file, room, random, tally);
}

/// A day may be lent in any place, so it stands behind as many canaries as its length says.
pub fn judge_alike(words: &[u32], tally: &mut Tally) {
    let lent = Lent::new(words, words.len() % 8);
    let judged = kazhuvendi::judge(lent.items());
    lent.assert_holds(words);
    assert_eq!(judged, expected_size(words), "a day of {} words", words.len());
    tally.add(judged.map(|_| "days accepted"));
}

/// The buffer holds words of no meaning before. Only those that are read may change.
pub fn read_alike(file: &[u8], room: usize, random: &mut Random, tally: &mut Tally) {
    let mut words: Vec<u32> = (0..room).map(|_| random.word()).collect();
    let lent_file = Lent::new(file, random.below(8));
    let mut lent_words = Lent::new(&words, random.below(8));
    let read = kazhuvendi::read_words(lent_file.items(), lent_words.items_mut());
    let expected = bytes::read(file, room);
    if let Ok(written) = &expected {
        words[..written.len()].copy_from_slice(written);
    }
    lent_file.assert_holds(file);
    lent_words.assert_holds(&words);
    let expected = expected.map(|written| written.len()).map_err(as_refusal);
    assert_eq!(read, expected, "{} bytes into {room} words", file.len());
    tally.add(read.map(|_| "files read"));
}

/// What the library should say of a day.
pub fn expected_size(words: &[u32]) -> Result<Size, Refusal> {
    day::read(words)
        .map(|day| Size { stops: day.stops.len(), tips: day.tips.len() })
        .map_err(as_refusal)
}
