//! Whether a timetable exists: "A timetable gives each word a whole minute". It is asked for from
//! the last word backwards. Each word has a latest minute at which it can start so that all words
//! behind it can still follow; where none of these lies before an opening, there is a timetable.

use crate::day::{Day, Window};
use crate::plan::Word;

/// What a vehicle does by one word.
struct Duty {
    place: usize,
    /// When it may start.
    window: Window,
    /// How long it lasts.
    minutes: u32,
}

/// Whether a vehicle can do these words, of which the first is its A. Where the last is its E, it
/// is back by this minute.
pub fn exists(day: &Day, words: &[Word], back_by: u32) -> bool {
    let mut behind: Option<(usize, u32)> = None;
    for duty in duties(day, words, back_by).iter().rev() {
        let in_time = match behind {
            None => Some(u32::MAX),
            Some((place, latest)) => {
                latest.checked_sub(day.legs[duty.place][place].minutes + duty.minutes)
            }
        };
        let Some(in_time) = in_time else { return false };
        let latest = in_time.min(duty.window.closing);
        if latest < duty.window.opening {
            return false;
        }
        behind = Some((duty.place, latest));
    }
    true
}

/// A vehicle leaves "at E0 (depot opening) or later", and a rest starts "where the vehicle is".
fn duties(day: &Day, words: &[Word], back_by: u32) -> Vec<Duty> {
    let mut place = 0;
    let mut duties = Vec::with_capacity(words.len());
    for &word in words {
        let (window, minutes) = match word {
            Word::Vehicle(_) => (Window { opening: day.depot.opening, closing: u32::MAX }, 0),
            Word::Stop(stop) => {
                let stop = day.stops[stop as usize - 1];
                (stop.window, stop.service)
            }
            Word::Tip(tip) => {
                let tip = day.tips[tip as usize - 1];
                (tip.window, tip.service)
            }
            Word::Rest => (day.rest, day.rest_minutes),
            Word::Back => (Window { opening: 0, closing: back_by }, 0),
            Word::LeftOut(_) => unreachable!("no vehicle leaves a stop out"),
        };
        place = place_of(day, word).unwrap_or(place);
        duties.push(Duty { place, window, minutes });
    }
    duties
}

/// The place that a word leads to: 0 the depot, then the tips, then the stops.
pub fn place_of(day: &Day, word: Word) -> Option<usize> {
    match word {
        Word::Vehicle(_) | Word::Back => Some(0),
        Word::Tip(tip) => Some(tip as usize),
        Word::Stop(stop) => Some(day.tips.len() + stop as usize),
        Word::Rest | Word::LeftOut(_) => None,
    }
}
