//! Solomon instances: both get the same text and a buffer of the same length.

use kazhuvendi::{Refusal, Size};
use reference::lent::{random_room, Lent};
use reference::random::Random;
use reference::solomon::import;
use reference::solomon_texts::random_text;

use crate::compare::{as_refusal, Tally};

/// A text, good or damaged, and a buffer that is often of just the length that its day needs.
pub fn round(random: &mut Random, tally: &mut Tally) {
    let text = random_text(random);
    let needed = import(&text, usize::MAX).map_or(13, |words| words.len());
    let room = random_room(random, needed);
    import_alike(&text, room, random, tally);
}

/// The buffer holds words of no meaning before. Only those of the day may change, and after a refusal
/// none. The library's own judge has to accept what it wrote.
pub fn import_alike(text: &[u8], room: usize, random: &mut Random, tally: &mut Tally) {
    let expected = import(text, room);
    let mut words: Vec<u32> = (0..room).map(|_| random.word()).collect();
    let lent_text = Lent::new(text, random.below(8));
    let mut lent_words = Lent::new(&words, random.below(8));
    let answer = kazhuvendi::import_solomon(lent_text.items(), lent_words.items_mut());
    if let Ok(written) = &expected {
        words[..written.len()].copy_from_slice(written);
    }
    let expected = expected.map(|written| written.len()).map_err(as_refusal);
    assert_eq!(answer, expected, "room {room}, {}", text.escape_ascii());
    lent_text.assert_holds(text);
    assert!(lent_words.items() == words, "room {room}, {}", text.escape_ascii());
    lent_words.assert_canaries();
    if let Ok(count) = answer {
        let stops = (words[0] & 255) as usize;
        assert_eq!(kazhuvendi::judge(&words[..count]), Ok(Size { stops, tips: 1 }));
    }
    note(answer, &words, tally);
}

fn note(answer: Result<usize, Refusal>, words: &[u32], tally: &mut Tally) {
    tally.add(answer.map(|_| "texts read"));
    match answer {
        Ok(_) if words[0] & 255 == 0 => tally.note("with no stop"),
        Ok(_) if words[0] & 255 >= 100 => tally.note("with 100 stops"),
        Err(refusal) if refusal.number > 14 && refusal.place > 1_000 => {
            tally.note("refused behind byte 1,000");
        }
        _ => {}
    }
}
