//! The greedy build. Nothing is carried from one decision to the next but the words that the
//! vehicle has so far: wherever a minute, a place or a load is asked for, these are replayed from
//! the depot. What could come next is gathered and sorted, and the first of it is taken.

use crate::day::{Day, Window};
use crate::plan::Word;
use crate::timetable::place_of;
use crate::Refusal;

/// What the build comes to.
#[derive(Clone, Debug, PartialEq, Eq)]
pub struct Built {
    /// The words of the greedy plan.
    pub words: Vec<u32>,
    /// The sum over the legs driven.
    pub distance: u64,
    /// The stops left out, F words.
    pub left_out: u64,
}

/// The greedy plan, or refusal 14 where the plan buffer has not the room of 5n words.
pub fn build(day: &Day, room: usize) -> Result<Built, Refusal> {
    let needed = 5 * day.stops.len();
    if room < needed {
        return Err(Refusal { number: 14, place: needed as u64 });
    }
    let mut unrouted: Vec<u32> = (1..=day.stops.len() as u32).collect();
    let (mut words, mut distance) = (Vec::new(), 0);
    for count in 1.. {
        let done = one_vehicle(day, &unrouted);
        if !done.iter().any(|word| matches!(word, Word::Stop(_))) {
            break;
        }
        unrouted.retain(|stop| !done.contains(&Word::Stop(*stop)));
        distance += replay(day, &with(&done, Word::Back)).distance;
        words.push(Word::Vehicle(count));
        words.extend(done);
        words.push(Word::Back);
    }
    words.extend(unrouted.iter().map(|stop| Word::LeftOut(*stop)));
    let words = words.into_iter().map(Word::word).collect();
    Ok(Built { words, distance, left_out: unrouted.len() as u64 })
}

/// "A fresh vehicle could take a stop first if, after step 2 at the depot, step 3's or step 5's
/// conditions hold for it."
pub fn could_take_first(day: &Day, stop: u32) -> bool {
    let done = rested_if_due(day, &[]);
    within_window(day, &done, stop) || before_opening(day, &done, stop)
}

/// What a fresh vehicle does between its A and its E, with these stops to choose from.
fn one_vehicle(day: &Day, unrouted: &[u32]) -> Vec<Word> {
    let mut done = Vec::new();
    loop {
        done = rested_if_due(day, &done);
        let free = unrouted.iter().copied().filter(|stop| !done.contains(&Word::Stop(*stop)));
        let free: Vec<u32> = free.collect();
        let next = step_3(day, &done, &free)
            .or_else(|| step_4(day, &done))
            .or_else(|| step_5(day, &done, &free));
        match next {
            Some(word) => done.push(word),
            None => return done,
        }
    }
}

/// The stop of least minutes; "the earlier closing, and then the lower number". A choice that is
/// dropped is not replaced by another one.
fn step_3(day: &Day, done: &[Word], free: &[u32]) -> Option<Word> {
    let here = replay(day, done).place;
    let open = free.iter().filter(|stop| within_window(day, done, **stop));
    let (minutes, _, stop) = least(open.map(|&stop| {
        let word = Word::Stop(stop);
        (minutes_to(day, here, word), window_of(day, word).closing, stop)
    }))?;
    let dropped = near_capacity(day, done) && {
        let tip = nearest_open_tip(day, done).expect("the last stop was taken with a way home");
        minutes > minutes_to(day, here, tip)
    };
    (!dropped).then_some(Word::Stop(stop))
}

/// A load goes to the nearest open tip.
fn step_4(day: &Day, done: &[Word]) -> Option<Word> {
    (replay(day, done).load > 0)
        .then(|| nearest_open_tip(day, done).expect("the last stop was taken with a way home"))
}

/// The stop of least opening; ties as in step 3.
fn step_5(day: &Day, done: &[Word], free: &[u32]) -> Option<Word> {
    let shut = free.iter().filter(|stop| before_opening(day, done, **stop));
    let (_, _, stop) = least(shut.map(|&stop| {
        let window = window_of(day, Word::Stop(stop));
        (window.opening, window.closing, stop)
    }))?;
    Some(Word::Stop(stop))
}

/// The first in the order of the keys, which end in the number.
fn least<Key: Copy + Ord>(candidates: impl Iterator<Item = Key>) -> Option<Key> {
    let mut candidates: Vec<Key> = candidates.collect();
    candidates.sort_unstable();
    candidates.first().copied()
}

/// Step 3's conditions.
fn within_window(day: &Day, done: &[Word], stop: u32) -> bool {
    is_open(day, done, Word::Stop(stop)) && suits(day, done, stop)
}

/// Step 5's conditions.
fn before_opening(day: &Day, done: &[Word], stop: u32) -> bool {
    let word = Word::Stop(stop);
    arrival(day, done, word) < window_of(day, word).opening && suits(day, done, stop)
}

/// "Fitting Q, Q* and S*, with a way home after service."
fn suits(day: &Day, done: &[Word], stop: u32) -> bool {
    let served = with(done, Word::Stop(stop));
    let after = replay(day, &served);
    after.load <= day.limits.load
        && after.day_load <= day.limits.day_load
        && after.stops <= day.limits.day_stops
        && has_way_home(day, &served)
}

/// "Load > 0 and at least one of 5 × load > 4Q, 5 × day's kg > 4Q* and 5 × stops > 4S*."
fn near_capacity(day: &Day, done: &[Word]) -> bool {
    let now = replay(day, done);
    let near = |used: u32, limit: u32| 5 * used > 4 * limit;
    now.load > 0
        && (near(now.load, day.limits.load)
            || near(now.day_load, day.limits.day_load)
            || near(now.stops, day.limits.day_stops))
}

/// The way home is what a vehicle would do if no stop came any more.
fn has_way_home(day: &Day, done: &[Word]) -> bool {
    let mut home = rested_if_due(day, done);
    if replay(day, &home).load > 0 {
        let Some(tip) = nearest_open_tip(day, &home) else { return false };
        home = rested_if_due(day, &with(&home, tip));
    }
    let back = arrival(day, &home, Word::Back);
    back <= day.depot.closing && (home.contains(&Word::Rest) || back <= day.rest.closing)
}

/// These words, and a rest behind them where it is due.
pub(crate) fn rested_if_due(day: &Day, done: &[Word]) -> Vec<Word> {
    let minute = replay(day, done).minute;
    let due =
        !done.contains(&Word::Rest) && day.rest.opening <= minute && minute <= day.rest.closing;
    if due {
        with(done, Word::Rest)
    } else {
        done.to_vec()
    }
}

/// n(p,T), of the place and the minute that these words lead to.
pub(crate) fn nearest_open_tip(day: &Day, done: &[Word]) -> Option<Word> {
    let here = replay(day, done).place;
    let tips = (1..=day.tips.len() as u32).filter(|tip| is_open(day, done, Word::Tip(*tip)));
    let (_, tip) = least(tips.map(|tip| (minutes_to(day, here, Word::Tip(tip)), tip)))?;
    Some(Word::Tip(tip))
}

/// Whether a stop or a tip is reached within its window.
fn is_open(day: &Day, done: &[Word], next: Word) -> bool {
    let window = window_of(day, next);
    (window.opening..=window.closing).contains(&arrival(day, done, next))
}

/// The minute at which a vehicle that drives there directly is there.
fn arrival(day: &Day, done: &[Word], next: Word) -> u32 {
    let now = replay(day, done);
    now.minute + minutes_to(day, now.place, next)
}

fn minutes_to(day: &Day, here: usize, next: Word) -> u32 {
    day.legs[here][place_of(day, next).unwrap_or(here)].minutes
}

pub(crate) fn with(done: &[Word], next: Word) -> Vec<Word> {
    let mut words = done.to_vec();
    words.push(next);
    words
}

/// Where a vehicle is and what it carries.
pub(crate) struct Standing {
    minute: u32,
    place: usize,
    pub(crate) load: u32,
    day_load: u32,
    stops: u32,
    distance: u64,
}

/// What a vehicle has come to that left the depot at its opening and did these words.
pub(crate) fn replay(day: &Day, done: &[Word]) -> Standing {
    let minute = day.depot.opening;
    let mut now = Standing { minute, place: 0, load: 0, day_load: 0, stops: 0, distance: 0 };
    for &word in done {
        let to = place_of(day, word).unwrap_or(now.place);
        let leg = day.legs[now.place][to];
        now.minute = (now.minute + leg.minutes).max(window_of(day, word).opening);
        now.distance += u64::from(leg.distance);
        now.place = to;
        match word {
            Word::Stop(stop) => {
                let stop = day.stops[stop as usize - 1];
                now.minute += stop.service;
                now.load += stop.quantity;
                now.day_load += stop.quantity;
                now.stops += 1;
            }
            Word::Tip(tip) => {
                now.minute += day.tips[tip as usize - 1].service;
                now.load = 0;
            }
            Word::Rest => now.minute += day.rest_minutes,
            Word::Back | Word::Vehicle(_) | Word::LeftOut(_) => {}
        }
    }
    now
}

/// When what a word stands for may start.
fn window_of(day: &Day, word: Word) -> Window {
    match word {
        Word::Stop(stop) => day.stops[stop as usize - 1].window,
        Word::Tip(tip) => day.tips[tip as usize - 1].window,
        Word::Rest => day.rest,
        Word::Back | Word::Vehicle(_) | Word::LeftOut(_) => {
            Window { opening: 0, closing: u32::MAX }
        }
    }
}
