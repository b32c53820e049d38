//! Legs by a matrix: a row for each place that is left, with its name and a leg to each place.

use super::error::TextError;
use super::faults::Found;
use super::fields::{Field, Fields};
use super::lines::Lines;
use super::names::Names;
use super::values::{between_quotes, is_digits, whole};
use crate::day::{range, Leg};

/// How the way from a place to itself may be written.
pub(super) const NO_WAY: &str = "-";

/// The rows behind `legs by matrix`. Rows in another order are told once.
pub(super) fn read(names: &Names, lines: &mut Lines<'_>, found: &mut Found) -> Vec<Leg> {
    let places = names.places();
    let mut legs = Vec::with_capacity(places * places);
    for from in 0..places {
        let name = names.place(from);
        let Some(mut fields) = lines.next() else {
            found.add(lines.end().error(format!("the legs from \"{name}\" are missing")));
            break;
        };
        if let Err(fault) = begins_with(name, &mut fields) {
            found.add(fault);
            lines.skip();
            break;
        }
        let read = row(names, from, &mut fields, &mut legs);
        found.of_line(&mut fields, read);
    }
    legs
}

/// Takes the name that a row begins with.
fn begins_with(name: &str, fields: &mut Fields<'_>) -> Result<(), TextError> {
    let given = fields.next("the name of a place")?;
    if given.text == name {
        return Ok(());
    }
    let words = fields.left().iter().take_while(|field| !is_leg(field)).count();
    let several = between_quotes(&given, &fields.left()[..words]);
    if several == format!("\"{name}\"") {
        return Err(given.error(format!("a name of several words needs quotes: write {several}")));
    }
    let given_name = given.text;
    let message = format!("the legs from \"{name}\" are expected here, not from \"{given_name}\"");
    Err(given.error(message))
}

fn is_leg(field: &Field<'_>) -> bool {
    field.text == NO_WAY || field.text.contains('/')
}

/// The legs from one place to all places.
fn row(
    names: &Names,
    from: usize,
    fields: &mut Fields<'_>,
    legs: &mut Vec<Leg>,
) -> Result<(), TextError> {
    for to in 0..names.places() {
        let field = fields.next_of(|| format!("the leg to \"{}\"", names.place(to)))?;
        let way = || (names.place(from), names.place(to));
        legs.push(fields.noting(leg(&field, from == to, way), Leg::default()));
    }
    fields.finish()
}

/// A leg as minutes/distance. Both are told by where they stand, so neither has a unit.
fn leg<'n>(
    field: &Field<'_>,
    to_itself: bool,
    way: impl Fn() -> (&'n str, &'n str),
) -> Result<Leg, TextError> {
    if field.text == NO_WAY && to_itself {
        return Ok(Leg::default());
    }
    let Some((minutes, distance)) = field.split('/') else {
        let text = field.text;
        return Err(field.error(format!("a leg is written as minutes/distance, not \"{text}\"")));
    };
    let leg = Leg { minutes: MINUTES.of(&minutes, &way)?, distance: DISTANCE.of(&distance, &way)? };
    if to_itself && leg != Leg::default() {
        return Err(field.error("the way from a place to itself is written as - or 0/0"));
    }
    Ok(leg)
}

/// One of the two numbers of a leg.
struct Part {
    name: &'static str,
    most: u32,
    /// What to do where it is too large.
    cure: &'static str,
}

const MINUTES: Part =
    Part { name: "minutes", most: *range::MINUTE.end(), cure: "they stand before the /" };
const DISTANCE: Part = Part {
    name: "distance",
    most: *range::DISTANCE.end(),
    cure: "give all distances in a larger unit",
};

impl Part {
    fn of<'n>(
        &self,
        field: &Field<'_>,
        way: impl Fn() -> (&'n str, &'n str),
    ) -> Result<u32, TextError> {
        let value = whole(field.text).filter(|value| *value <= self.most);
        value.ok_or_else(|| field.error(self.fault(field.text, way())))
    }

    fn fault(&self, text: &str, (from, to): (&str, &str)) -> String {
        let Part { name, most, cure } = self;
        if !is_digits(text) {
            return format!("the {name} of a leg must be a whole number, not \"{text}\"");
        }
        format!("the {name} from \"{from}\" to \"{to}\" must be 0 to {most}, not {text}: {cure}")
    }
}
