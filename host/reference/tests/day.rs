//! The second implementation of the day, held to what was worked out by hand.

use reference::day::{read, Leg, Window};
use reference::samples::{day_m, random_day};
use reference::worked::{changed, CHANGES, DAY_M};
use reference::{bytes, files, plain, random::Random, Refusal};

fn refusal(number: u64, place: u64) -> Refusal {
    Refusal { number, place }
}

#[test]
fn day_m_is_written_as_worked_out_by_hand() {
    assert_eq!(day_m().words(), DAY_M);
}

#[test]
fn day_m_is_read_as_document_01_gives_it() {
    let day = read(&DAY_M).expect("day M is accepted");
    assert_eq!((day.limits.load, day.limits.day_load, day.limits.day_stops), (100, 200, 5));
    assert_eq!(day.depot, Window { opening: 0, closing: 100 });
    assert_eq!((day.rest, day.rest_minutes), (Window { opening: 30, closing: 60 }, 10));
    assert_eq!((day.tips.len(), day.tips[0].window.closing, day.tips[0].service), (1, 100, 5));
    assert_eq!((day.stops.len(), day.stops[0].quantity, day.stops[1].quantity), (2, 60, 50));
    assert_eq!((day.stops[1].window.closing, day.stops[1].service), (50, 5));
    assert_eq!(day.legs[2][2], Leg::NONE);
    assert_eq!(day.legs[3][1], Leg { minutes: 10, distance: 7 });
}

#[test]
fn each_changed_word_is_answered_as_worked_out_by_hand() {
    for change in CHANGES {
        let (words, expected) = changed(change);
        let answer = read(&words).err().map(|refusal| (refusal.number, refusal.place));
        assert_eq!(answer, expected, "{change:X?}");
    }
}

#[test]
fn words_are_counted_before_a_later_word_is_looked_at() {
    assert_eq!(read(&DAY_M[..6]), Err(refusal(1, 6)));
    assert_eq!(read(&[]), Err(refusal(1, 0)));
    assert_eq!(read(&DAY_M[..7]), Err(refusal(4, 7)));
    assert_eq!(read(&DAY_M[..30]), Err(refusal(4, 30)));
    let mut longer = DAY_M.to_vec();
    longer.push(0x9000_0000);
    longer[1] = 0;
    assert_eq!(read(&longer), Err(refusal(4, 32)));
    longer[0] = 0x1000_01FF;
    assert_eq!(read(&longer), Err(refusal(3, 0)));
    longer[0] = 0x1000_10FF;
    assert_eq!(read(&longer), Err(refusal(2, 0)));
}

#[test]
fn the_earlier_word_is_refused_whatever_is_wrong_with_the_later() {
    let mut words = DAY_M;
    words[20] = 0x9000_0001;
    words[17] = 0x8000_0000;
    assert_eq!(read(&words), Err(refusal(2, 17)));
    words[11] = 0x8001_86A1;
    assert_eq!(read(&words), Err(refusal(5, 11)));
}

#[test]
fn a_day_is_read_back_as_it_was_written() {
    let mut random = Random::new(1);
    for (stops, tips) in [(0, 1), (0, 15), (1, 1), (17, 3), (240, 15)] {
        let day = random_day(&mut random, stops, tips);
        let words = day.words();
        let places = 1 + tips + stops;
        assert_eq!(words.len(), 7 + 2 * tips + 3 * stops + places * places);
        assert_eq!(read(&words), Ok(day));
    }
}

#[test]
fn bytes_are_read_low_byte_first() {
    let mut file = [0; 28];
    file[..4].copy_from_slice(&[0x78, 0x56, 0x34, 0x12]);
    file[27] = 0x80;
    let words = [0x1234_5678, 0, 0, 0, 0, 0, 0x8000_0000];
    assert_eq!(bytes::read(&file, 7), Ok(words.to_vec()));
    assert_eq!(bytes::write(&words), file);
    assert_eq!(bytes::read(&file, 6), Err(refusal(14, 7)));
    assert_eq!(bytes::read(&file[..27], 0), Err(refusal(1, 6)));
    assert_eq!(bytes::read(&file[..24], 0), Err(refusal(1, 6)));
    assert_eq!(bytes::read(&[], 0), Err(refusal(1, 0)));
    assert_eq!(bytes::read(&[0; 30], 100), Err(refusal(1, 7)));
}

#[test]
fn the_sample_file_is_day_m() {
    let path = concat!(env!("CARGO_MANIFEST_DIR"), "/../../examples/day-m.day");
    let file = std::fs::read(path).expect("the sample day is there");
    assert_eq!(file, bytes::write(&day_m().words()));
}

/// What the benchmark times has to be the same judge.
#[test]
fn plain_rust_answers_as_the_second_implementation() {
    let mut random = Random::new(2);
    for _ in 0..20_000 {
        let words = files::random_words(&mut random);
        let expected = read(&words).map(|day| (day.stops.len(), day.tips.len()));
        assert_eq!(plain::judge(&words), expected);
        let file = files::random_bytes(&mut random);
        let mut room = vec![0; (file.len() / 4).saturating_sub(random.below(2))];
        let expected = bytes::read(&file, room.len());
        assert_eq!(
            plain::read_words(&file, &mut room),
            expected.as_ref().map(Vec::len).map_err(|refusal| *refusal)
        );
        assert!(expected.map_or(true, |words| words == room));
    }
}
