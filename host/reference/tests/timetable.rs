//! Whether a timetable exists, against trying all minutes on days that have but a few.

use reference::day::{Day, Leg, Limits, Stop, Tip, Window};
use reference::plan::Word;
use reference::random::Random;
use reference::timetable::{exists, place_of};

/// No minute of these days is later.
const LAST: u32 = 6;

fn window(random: &mut Random) -> Window {
    let closing = random.within(0..=LAST);
    Window { opening: random.within(0..=closing), closing }
}

fn tiny_day(random: &mut Random) -> Day {
    let mut legs = vec![vec![Leg::NONE; 5]; 5];
    for (from, to) in (0..25).map(|leg| (leg / 5, leg % 5)).filter(|(from, to)| from != to) {
        legs[from][to] = Leg { minutes: random.below(3) as u32, distance: 1 };
    }
    let stop = |random: &mut Random| Stop {
        window: window(random),
        service: random.below(2) as u32,
        quantity: 0,
    };
    Day {
        limits: Limits { load: 1, day_load: 1, day_stops: 240 },
        depot: window(random),
        rest: window(random),
        rest_minutes: random.below(2) as u32,
        tips: vec![Tip { window: window(random), service: random.below(2) as u32 }],
        stops: (0..3).map(|_| stop(random)).collect(),
        legs,
    }
}

/// Some visits and rests behind an A, half of the times with an E behind them.
fn vehicle(random: &mut Random) -> Vec<Word> {
    let mut words = vec![Word::Vehicle(1)];
    for _ in 0..random.below(4) {
        words.push(match random.below(5) {
            0 => Word::Tip(1),
            1 => Word::Rest,
            stop => Word::Stop(stop as u32 - 1),
        });
    }
    if random.once_in(2) {
        words.push(Word::Back);
    }
    words
}

/// The rules for one word at a minute, and the minute at which it ends.
fn end_at(day: &Day, word: Word, minute: u32, back_by: u32) -> Option<u32> {
    let within = |window: Window| (window.opening..=window.closing).contains(&minute);
    let (allowed, lasts) = match word {
        Word::Vehicle(_) => (minute >= day.depot.opening, 0),
        Word::Stop(stop) => {
            let stop = day.stops[stop as usize - 1];
            (within(stop.window), stop.service)
        }
        Word::Tip(tip) => (within(day.tips[tip as usize - 1].window), day.tips[0].service),
        Word::Rest => (within(day.rest), day.rest_minutes),
        Word::Back => (minute <= back_by, 0),
        Word::LeftOut(_) => unreachable!("none is left out here"),
    };
    allowed.then_some(minute + lasts)
}

/// Tries each minute for the first of the words, then for the others behind it.
fn tried(day: &Day, words: &[Word], place: usize, end: u32, back_by: u32) -> bool {
    let Some((&word, behind)) = words.split_first() else { return true };
    let to = place_of(day, word).unwrap_or(place);
    let earliest = end + day.legs[place][to].minutes;
    (earliest..=LAST).any(|minute| {
        end_at(day, word, minute, back_by).is_some_and(|end| tried(day, behind, to, end, back_by))
    })
}

#[test]
fn a_timetable_exists_where_trying_all_minutes_finds_one() {
    let mut random = Random::new(14);
    let mut found = 0;
    for _ in 0..200_000 {
        let day = tiny_day(&mut random);
        let words = vehicle(&mut random);
        let back_by = random.within(0..=LAST);
        let expected = tried(&day, &words, 0, 0, back_by);
        assert_eq!(exists(&day, &words, back_by), expected, "{words:?} of {day:?}");
        found += u32::from(expected);
    }
    assert!((50_000..150_000).contains(&found), "{found} have a timetable");
}
