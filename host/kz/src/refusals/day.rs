//! What is wrong with a day that is refused.

use std::ops::RangeInclusive;

use kazhuvendi::Refusal;

use crate::clock::counted;
use crate::day::range;
use crate::text::Names;

/// What a word of a day is to be.
struct Field {
    what: String,
    kind: u32,
    holds: Holds,
}

enum Holds {
    /// A lone number.
    Number(RangeInclusive<u32>),
    /// An opening and a closing.
    Window,
    /// A leg from one place to another.
    Leg,
    /// A leg from a place to itself.
    LegToItself,
}

/// What is wrong, or nothing where this is no refusal of a day.
pub fn sentence(refusal: Refusal, day: &[u32]) -> Option<String> {
    let place = refusal.place as usize;
    match refusal.number {
        1 => Some(format!("the day has {} words, and no day has fewer than 7", day.len())),
        2 => Some(wrong_bits(*day.get(place)?, field(day, place))),
        3 => Some(wrong_size(*day.first()?)),
        4 => Some(wrong_length(day)),
        5 => Some(out_of_range(*day.get(place)?, field(day, place))),
        _ => None,
    }
}

fn wrong_bits(word: u32, field: Field) -> String {
    let (what, kind) = (field.what, field.kind);
    if word >> 28 == kind {
        format!("{what} is {word:08X}, where bits are set that have to be 0")
    } else {
        format!("{what} is {word:08X}, and has to begin with {kind}")
    }
}

fn wrong_size(word: u32) -> String {
    let (tips, stops) = size(word);
    if range::STOPS.contains(&stops) {
        format!("the day says that it has {tips} tips, and a day has at least one")
    } else {
        let most = range::STOPS.end();
        format!("the day says that it has {stops} stops, and a day has at most {most}")
    }
}

fn wrong_length(day: &[u32]) -> String {
    let (tips, stops) = size(day[0]);
    let places = 1 + tips + stops;
    let needed = 7 + 2 * tips + 3 * stops + places * places;
    let (given, tips, stops) = (day.len(), counted(tips, "tip"), counted(stops, "stop"));
    format!("the day has {given} words, and one of {tips} and {stops} has {needed}")
}

fn out_of_range(word: u32, field: Field) -> String {
    let what = field.what;
    let last = range::MINUTE.end();
    let (opening, closing) = (word >> 12 & 0xFFF, word & 0xFFF);
    match field.holds {
        Holds::Number(range) => {
            let (least, most) = range.into_inner();
            format!("{what} is {}, and has to be {least} to {most}", word & 0x7FF_FFFF)
        }
        Holds::Window if opening > closing => {
            format!("{what} opens at minute {opening} and closes before that, at minute {closing}")
        }
        Holds::Window => {
            format!("{what} closes at minute {closing}, and a day ends at minute {last}")
        }
        Holds::Leg => format!("{what} takes {} minutes, more than {last}", word >> 16 & 0xFFF),
        Holds::LegToItself => format!("{what} is {word:08X}, and has to be 90000000"),
    }
}

/// Tips and stops, as word 0 says.
fn size(word: u32) -> (usize, usize) {
    ((word >> 8 & 0xF) as usize, (word & 0xFF) as usize)
}

/// What the word at this place is to be.
fn field(day: &[u32], place: usize) -> Field {
    let (tips, stops) = size(day[0]);
    let stops_at = 7 + 2 * tips;
    let legs_at = stops_at + 3 * stops;
    if place < 7 {
        head(place)
    } else if place < stops_at {
        visit("tip", (place - 7) / 2, (place - 7) % 2)
    } else if place < legs_at {
        visit("stop", (place - stops_at) / 3, (place - stops_at) % 3)
    } else {
        leg(tips, stops, place - legs_at)
    }
}

fn head(place: usize) -> Field {
    let (what, holds) = match place {
        0 => ("the number of tips and stops", Holds::Number(0..=0xFFF)),
        1 => ("the load in kg", Holds::Number(range::LOAD)),
        2 => ("the load a day in kg", Holds::Number(range::DAY_LOAD)),
        3 => ("the number of stops a day", Holds::Number(range::DAY_STOPS)),
        4 => ("the depot's window", Holds::Window),
        5 => ("the rest window", Holds::Window),
        _ => ("the rest in minutes", Holds::Number(range::SERVICE)),
    };
    Field { what: what.to_string(), kind: place as u32 + 1, holds }
}

/// A word of a tip or stop, which is counted from 0 here.
fn visit(what: &str, index: usize, word: usize) -> Field {
    let place = format!("{what} {}", index + 1);
    let (what, kind, holds) = match word {
        0 => (format!("the window of {place}"), 5, Holds::Window),
        1 => (format!("the service of {place} in minutes"), 7, Holds::Number(range::SERVICE)),
        _ => (format!("the quantity of {place} in kg"), 8, Holds::Number(range::QUANTITY)),
    };
    Field { what, kind, holds }
}

fn leg(tips: usize, stops: usize, index: usize) -> Field {
    let places = 1 + tips + stops;
    let (from, to) = (index / places, index % places);
    let names = Names::numbered(stops, tips);
    let what = format!("the leg from {} to {}", names.place(from), names.place(to));
    Field { what, kind: 9, holds: if from == to { Holds::LegToItself } else { Holds::Leg } }
}
