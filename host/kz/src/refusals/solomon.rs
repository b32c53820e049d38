//! What is wrong with a Solomon instance that is refused. The number and the byte are the library's;
//! what belongs there follows from the lines and fields before it.

use std::ops::RangeInclusive;

use kazhuvendi::Refusal;

use super::{Refused, Spot};
use crate::clock::shortened;
use crate::day::range;
use crate::inputs::Named;
use crate::solomon::{Line, Place, Wanted, CAPACITY, DUE, READY, ROW};

/// What a coordinate of an instance may be.
const COORDINATE: RangeInclusive<u32> = 0..=1_000;

/// A field is shown with at most so many characters.
const LONGEST: usize = 40;

/// The refusal of an instance.
pub fn refused(refusal: Refusal, file: &Named) -> Refused {
    let place = Place::of(&file.bytes, refusal.place as usize);
    let sentence = match refusal.number {
        17 => no_form(&place),
        18 => no_limit(&place),
        _ => None,
    };
    let Place { line, column, .. } = place;
    let spot = Spot::Byte { byte: refusal.place, line, column, file: file.name.clone() };
    Refused::of(refusal, sentence.unwrap_or_else(|| refusal.to_string())).at(spot)
}

/// What breaks the form.
fn no_form(place: &Place<'_>) -> Option<String> {
    let found = shown(place.found);
    let (line, field) = match place.wanted {
        Wanted::Line(line) => return missing_line(line),
        Wanted::Nothing => {
            return Some(format!("nothing more is expected on this line, not \"{found}\""));
        }
        Wanted::Field(line, field) => (line, field),
    };
    if let Some(word) = word(line) {
        return Some(format!("the word {word} is expected here, not \"{found}\""));
    }
    let what = named(line, field)?;
    match (place.found, line) {
        ([], _) => Some(format!("{what} is missing")),
        (digits, Line::Row(row)) if field == 0 && is_number(digits) => Some(no_next(row, &found)),
        _ => Some(format!("{what} must be a whole number, not \"{found}\"")),
    }
}

fn missing_line(line: Line) -> Option<String> {
    let missing = match line {
        Line::Name => {
            return Some("there is nothing here; a Solomon instance begins with its name".into());
        }
        Line::Vehicle | Line::Customer => format!("the line {}", word(line)?),
        Line::VehicleColumns => "the line of column names behind VEHICLE".into(),
        Line::Capacity => "the line with the vehicle number and the capacity".into(),
        Line::CustomerColumns => "the line of column names behind CUSTOMER".into(),
        Line::Row(_) => "the line of the depot, which has the number 0,".into(),
    };
    Some(format!("{missing} is missing"))
}

/// A row that has another number than its turn.
fn no_next(row: usize, found: &str) -> String {
    match row {
        0 => format!("the first line of numbers is the depot's, with the number 0, not {found}"),
        _ => {
            format!("customer {row} comes next, not {found}: customers are numbered without a gap")
        }
    }
}

/// What is outside a limit.
fn no_limit(place: &Place<'_>) -> Option<String> {
    let Wanted::Field(line, field) = place.wanted else { return None };
    let found = shown(place.found);
    if let (Line::Row(row), 0) = (line, field) {
        let most = range::STOPS.end();
        return Some(format!("a day has at most {most} stops, and this line has customer {row}"));
    }
    let what = named(line, field)?;
    let (least, most) = limits(line, field)?.into_inner();
    let within = number(place.found).is_some_and(|value| value <= most);
    if matches!(line, Line::Row(_)) && field == DUE && within {
        let ready = place.before.get(READY).map(|ready| shown(ready))?;
        return Some(format!("{what}, {found}, is before the ready time, {ready}"));
    }
    Some(format!("{what} must be {least} to {most}, not {found}"))
}

/// What a used number of this field may be.
fn limits(line: Line, field: usize) -> Option<RangeInclusive<u32>> {
    match (line, field) {
        (Line::Capacity, 1) => Some(range::LOAD),
        (Line::Row(_), 1 | 2) => Some(COORDINATE),
        (Line::Row(_), 3) => Some(range::QUANTITY),
        (Line::Row(_), READY | DUE) => Some(range::MINUTE),
        (Line::Row(_), 6) => Some(range::SERVICE),
        _ => None,
    }
}

/// The one word of a line that has one.
fn word(line: Line) -> Option<&'static str> {
    match line {
        Line::Vehicle => Some("VEHICLE"),
        Line::Customer => Some("CUSTOMER"),
        _ => None,
    }
}

/// A number by the name of its field, and whose it is.
fn named(line: Line, field: usize) -> Option<String> {
    match line {
        Line::Capacity => Some(format!("the {}", CAPACITY.get(field)?)),
        Line::Row(_) if field == 0 => Some(format!("the {}", ROW[field])),
        Line::Row(0) => Some(format!("the {} of the depot", ROW.get(field)?)),
        Line::Row(row) => Some(format!("the {} of customer {row}", ROW.get(field)?)),
        _ => None,
    }
}

fn is_number(field: &[u8]) -> bool {
    !field.is_empty() && field.iter().all(u8::is_ascii_digit)
}

/// The number of a field, where it is not too large.
fn number(field: &[u8]) -> Option<u32> {
    let digits = std::str::from_utf8(field).ok().filter(|_| is_number(field))?;
    digits.parse().ok()
}

/// A field without what a terminal would obey.
fn shown(field: &[u8]) -> String {
    shortened(&String::from_utf8_lossy(field).replace(char::is_control, "\u{FFFD}"), LONGEST)
}
