//! The second implementation of bringing in Solomon instances, held to what was worked out by hand,
//! and to the plain path that the benchmark times.

use reference::lent::random_room;
use reference::random::Random;
use reference::solomon::import;
use reference::solomon_texts::{random_lines, random_text, Layout, DEPOT};
use reference::worked_texts::{changed, Change, FORM, LIMIT, READ, SAME, TEXT, WORDS};
use reference::{day, plain, Refusal};

/// What stands in the buffer before.
const BEFORE: u32 = 0x5555_5555;

/// The plain path's words, which has to leave the rest of the buffer as it was.
fn import_plainly(text: &[u8], room: usize) -> Result<Vec<u32>, Refusal> {
    let mut words = vec![BEFORE; room];
    let answer = plain::import_solomon(text, &mut words);
    let behind = words.split_off(answer.unwrap_or(0));
    assert!(behind.iter().all(|word| *word == BEFORE), "{}", text.escape_ascii());
    answer.map(|_| words)
}

/// The answer, which both have to give.
fn imported(text: &[u8], room: usize) -> Result<Vec<u32>, Refusal> {
    let answer = import(text, room);
    assert_eq!(import_plainly(text, room), answer, "room {room}, {}", text.escape_ascii());
    answer
}

#[test]
fn the_worked_text_gives_its_words() {
    assert_eq!(imported(TEXT.as_bytes(), 31), Ok(WORDS.to_vec()));
    assert_eq!(imported(TEXT.as_bytes(), 30), Err(Refusal { number: 14, place: 31 }));
    for change in SAME {
        assert_eq!(imported(&changed(change).0, 40), Ok(WORDS.to_vec()), "{change:?}");
    }
}

#[test]
fn each_limit_is_within_the_day() {
    for change in READ {
        let words = imported(&changed(change).0, 31).unwrap_or_else(|_| panic!("{change:?}"));
        assert_ne!(words, WORDS, "{change:?}");
        assert!(day::read(&words).is_ok(), "{change:?}");
    }
}

/// Whatever the room is.
fn assert_refused(changes: &[Change], number: u64) {
    for change in changes {
        let (text, place) = changed(change);
        let place = place.expect("a case has its place");
        for room in [0, 31] {
            assert_eq!(imported(&text, room), Err(Refusal { number, place }), "{change:?}");
        }
    }
}

#[test]
fn each_worked_fault_is_refused_at_its_place() {
    assert_refused(FORM, 17);
    assert_refused(LIMIT, 18);
}

/// "A missing line: the text's length, also behind blank lines."
#[test]
fn a_text_that_ends_too_early_is_refused_at_its_end() {
    let lines: Vec<&str> = TEXT.split_inclusive('\n').collect();
    for count in 0..=DEPOT {
        for behind in ["", "\n", " \r\n\t"] {
            let text = [lines[..count].concat().as_str(), behind].concat();
            let place = text.len() as u64;
            assert_eq!(imported(text.as_bytes(), 31), Err(Refusal { number: 17, place }));
        }
    }
}

/// 13 + 7n + n² words, for each n that there is.
#[test]
fn each_number_of_stops_needs_its_words() {
    let mut random = Random::new(1);
    for stops in 0..=240 {
        let lines = random_lines(&mut random, stops);
        let text = Layout::random(&mut random).text(&mut random, &lines);
        let needed = 13 + 7 * stops + stops * stops;
        let refusal = Refusal { number: 14, place: needed as u64 };
        assert_eq!(import(&text, needed - 1), Err(refusal), "{stops} stops");
        let words = imported(&text, needed).expect("the room is enough");
        assert_eq!(words.len(), needed);
        assert_eq!(day::read(&words).map(|day| day.stops.len()), Ok(stops));
    }
}

#[test]
fn the_plain_path_answers_as_the_second_implementation() {
    let mut random = Random::new(2);
    for _ in 0..5_000 {
        let text = random_text(&mut random);
        let needed = import(&text, usize::MAX).map_or(13, |words| words.len());
        let _ = imported(&text, random_room(&mut random, needed));
    }
}
