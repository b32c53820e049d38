//! Bringing in Solomon instances: the library's words beside those of the second implementation and
//! those that were worked out by hand.

mod compare;
#[path = "compare/texts.rs"]
mod texts;

use compare::Tally;
use kazhuvendi::{import_solomon, Refusal};
use reference::random::Random;
use reference::solomon_texts::{random_lines, Layout, Lines, DEPOT};
use reference::worked_texts::{changed, Change, FORM, LIMIT, READ, SAME, TEXT, WORDS};
use texts::{import_alike, round};

/// What stands in the buffer before.
const BEFORE: u32 = 0x5555_5555;

/// The words of a day of 240 stops.
const MOST_WORDS: usize = 59_293;

#[test]
fn the_worked_text_gives_its_words() {
    let mut random = Random::new(400);
    let mut tally = Tally::default();
    for room in 0..=40 {
        import_alike(TEXT.as_bytes(), room, &mut random, &mut tally);
    }
    assert_eq!(tally.to_string(), "10 texts read, refusal 14 31 times");
    for text in SAME.iter().map(|change| changed(change).0).chain([TEXT.into()]) {
        let mut words = [BEFORE; 32];
        assert_eq!(import_solomon(&text, &mut words), Ok(31), "{}", text.escape_ascii());
        assert_eq!((&words[..31], words[31]), (&WORDS[..], BEFORE), "{}", text.escape_ascii());
    }
}

#[test]
fn each_limit_is_within_the_day() {
    let mut random = Random::new(401);
    let mut tally = Tally::default();
    for change in READ {
        import_alike(&changed(change).0, 31, &mut random, &mut tally);
    }
    assert_eq!(tally.to_string(), format!("{} texts read", READ.len()));
}

/// Whatever the room is; and the buffer stays as it was.
fn assert_refused(changes: &[Change], number: u64) {
    for change in changes {
        let (text, place) = changed(change);
        let place = place.expect("a case has its place");
        for room in [0, 30, 31, 40] {
            let mut words = vec![BEFORE; room];
            let answer = import_solomon(&text, &mut words);
            assert_eq!(answer, Err(Refusal { number, place }), "{change:?}");
            assert!(words.iter().all(|word| *word == BEFORE), "{change:?}");
        }
    }
}

#[test]
fn each_worked_fault_is_refused_at_its_place() {
    assert_refused(FORM, 17);
    assert_refused(LIMIT, 18);
}

/// The text in each layout.
fn laid_out(random: &mut Random, lines: &Lines) -> Vec<Vec<u8>> {
    Layout::each().map(|layout| layout.text(random, lines)).collect()
}

#[test]
fn each_beginning_of_a_text_in_each_layout_answers_as_the_reference() {
    let mut random = Random::new(402);
    let mut tally = Tally::default();
    for stops in [0, 1, 4] {
        let lines = random_lines(&mut random, stops);
        for text in laid_out(&mut random, &lines) {
            for length in 0..=text.len() {
                import_alike(&text[..length], 60, &mut random, &mut tally);
            }
        }
    }
    println!("{tally}");
    assert!(tally.met["texts read"] >= 500 && tally.refused[17] >= 10_000);
}

/// Blanks are doubled, so that a byte may come to stand between two of them.
#[test]
fn each_byte_of_a_text_replaced_removed_or_doubled_answers_as_the_reference() {
    let mut random = Random::new(403);
    let mut tally = Tally::default();
    let right = TEXT.replace(' ', "  ").into_bytes();
    for at in 0..right.len() {
        let mut text = right.clone();
        for byte in 0..=255 {
            text[at] = byte;
            import_alike(&text, 31, &mut random, &mut tally);
        }
        text.remove(at);
        import_alike(&text, 31, &mut random, &mut tally);
        let mut text = right.clone();
        text.insert(at, right[at]);
        import_alike(&text, 31, &mut random, &mut tally);
    }
    println!("{tally}");
    assert!(tally.met["texts read"] >= 5_000 && tally.refused[18] >= 50);
}

/// Texts of this many stops, with the last line as it is and with some of it replaced. Where its number
/// is, the line before may have an offence too.
fn with_last_lines(stops: usize, random: &mut Random, tally: &mut Tally) {
    let right = random_lines(random, stops);
    let last = DEPOT + stops;
    let mut each = vec![right.clone()];
    for number in ["239", "240", "241", "242", "0241", "-241", "18446744073709551857", "24l", "1"] {
        let mut lines = right.clone();
        lines[last][0] = number.into();
        each.push(lines.clone());
        lines[last - 1][6] = "241".into();
        each.push(lines.clone());
        lines[last - 1][6] = "x".into();
        each.push(lines);
    }
    for length in 1..=8 {
        let mut lines = right.clone();
        lines[last].resize(length, b"1001".to_vec());
        each.push(lines);
    }
    for lines in each {
        let text = Layout::random(random).text(random, &lines);
        import_alike(&text, MOST_WORDS, random, tally);
    }
}

#[test]
fn a_stop_past_240_is_refused_as_the_reference_refuses_it() {
    let mut random = Random::new(404);
    let mut tally = Tally::default();
    for stops in [239, 240, 241, 242, 300] {
        with_last_lines(stops, &mut random, &mut tally);
    }
    println!("{tally}");
    assert!(tally.met["texts read"] >= 4 && tally.refused[17] >= 30 && tally.refused[18] >= 70);
}

/// Stops on both axes, so that each leg from one axis to the other has another dx and dy.
fn axes(from_x: usize, from_y: usize) -> String {
    let mut text = TEXT[..TEXT.find("0 35").expect("the depot's line")].to_string();
    let rest = "0 0 1440 0";
    text += &format!("0 0 0 {rest}\n");
    for step in 0..120 {
        let (x, y) = ((from_x + step).min(1_000), (from_y + step).min(1_000));
        text += &format!("{} {x} 0 {rest}\n{} 0 {y} {rest}\n", 2 * step + 1, 2 * step + 2);
    }
    text
}

/// "A leg's minutes ... and its distance": every dx and dy from 0 to 1,000.
#[test]
fn each_leg_that_there_can_be_is_as_the_reference_has_it() {
    let mut random = Random::new(405);
    let mut tally = Tally::default();
    for from_x in (0..=1_000).step_by(120) {
        for from_y in (0..=1_000).step_by(120) {
            let text = axes(from_x, from_y);
            import_alike(text.as_bytes(), MOST_WORDS, &mut random, &mut tally);
        }
    }
    assert_eq!(tally.met["texts read"], 81);
}

#[test]
fn random_and_damaged_texts_answer_as_the_reference() {
    let mut tally = Tally::default();
    for seed in 410..470 {
        let mut random = Random::new(seed);
        for _ in 0..1_000 {
            round(&mut random, &mut tally);
        }
    }
    println!("{tally}");
    assert!(tally.met["texts read"] >= 10_000 && tally.met["with 100 stops"] >= 50);
    assert!(tally.met["refused behind byte 1,000"] >= 300);
    for (number, least) in [(14, 2_000), (17, 10_000), (18, 5_000)] {
        assert!(tally.refused[number] >= least, "refusal {number}");
    }
}
