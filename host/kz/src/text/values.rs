//! The values that fields hold: numbers with their unit, names and positions. Each is held to what
//! a word of the day file can say, so that what is wrong is named where it stands.

use std::ops::RangeInclusive;

use super::error::{Spot, TextError};
use super::fields::{Field, Fields};
use crate::day::{range, Visit};

/// A position in millionths of the unit that the legs name.
#[derive(Clone, Copy, Debug, PartialEq, Eq)]
pub(super) struct Position {
    pub x: i64,
    pub y: i64,
}

/// Where on the map a place is, if that is said, and where in the text it is or could be said.
#[derive(Clone, Copy, Debug)]
pub(super) struct Site {
    pub position: Option<Position>,
    pub spot: Spot,
    /// Whether its line has a fault, which is told already.
    pub faulty: bool,
}

/// How finely positions are told.
pub(super) const MILLION: i64 = 1_000_000;

/// No coordinate is further from 0, in units: metres in any grid of the earth are less.
const FARTHEST: u64 = 100_000_000;

impl<'t> Fields<'t> {
    /// A whole number of this range.
    pub fn number(&mut self, what: &str, range: RangeInclusive<u32>) -> Result<u32, TextError> {
        let field = self.next(what)?;
        Ok(self.noting(field.number(what, &range), *range.start()))
    }

    /// A whole number with its unit behind it.
    pub fn amount(
        &mut self,
        what: &str,
        range: RangeInclusive<u32>,
        unit: &str,
    ) -> Result<u32, TextError> {
        let field = self.next(what)?;
        let text = field.text;
        if let Some(number) = text.strip_suffix(unit).filter(|number| is_digits(number)) {
            let message = format!(
                "a blank stands between a number and its unit: write {number} {unit}, not \"{text}\""
            );
            return Ok(self.noting(Err(field.error(message)), *range.start()));
        }
        let number = self.noting(field.number(what, &range), *range.start());
        self.expect(unit)?;
        Ok(number)
    }

    /// A window and the minutes of service.
    pub fn visit(&mut self) -> Result<Visit, TextError> {
        let window = self.window("the window")?;
        Ok(Visit { window, minutes: self.amount("the service", range::SERVICE, "min")? })
    }

    /// A name: one word, or more of them between quotes.
    pub fn name(&mut self, what: &str) -> Result<Field<'t>, TextError> {
        let field = self.next(what)?;
        if field.text.trim().is_empty() {
            return Err(field.error(format!("{what} is empty")));
        }
        Ok(field)
    }

    /// Asks that none of the next fields, so many, belongs to a name that stands before them.
    pub fn name_ends(&self, name: &Field<'t>, words: usize) -> Result<(), TextError> {
        if words == 0 {
            return Ok(());
        }
        let several = between_quotes(name, &self.left()[..words]);
        Err(name.error(format!("a name of several words needs quotes: write {several}")))
    }

    /// `at X Y`, where it is there.
    pub fn site(&mut self) -> Result<Site, TextError> {
        if self.peek().is_none() {
            return Ok(Site { position: None, spot: self.end(), faulty: false });
        }
        self.expect("at")?;
        let x = self.next("the first coordinate")?;
        let y = self.next("the second coordinate")?;
        let read = x.coordinate().and_then(|x| Ok(Some(Position { x, y: y.coordinate()? })));
        let position = self.noting(read, None);
        Ok(Site { position, spot: x.spot, faulty: position.is_none() })
    }

    /// A number with at most two decimals, in hundredths.
    pub fn hundredths(&mut self, what: &str, range: RangeInclusive<u32>) -> Result<u32, TextError> {
        let field = self.next(what)?;
        let value = decimal(field.text, 2).and_then(|value| u32::try_from(value).ok());
        let value = value.filter(|value| range.contains(value) && !field.quoted).ok_or_else(|| {
            let shown = |hundredths: &u32| format!("{}.{:02}", hundredths / 100, hundredths % 100);
            let (least, most) = (shown(range.start()), shown(range.end()));
            let text = field.text;
            field.error(format!(
                "{what} must be {least} to {most} with at most 2 decimals, not \"{text}\""
            ))
        });
        Ok(self.noting(value, *range.start()))
    }
}

impl<'t> Field<'t> {
    /// The parts before and behind a character. No name between quotes is taken apart.
    pub fn split(&self, at: char) -> Option<(Field<'t>, Field<'t>)> {
        let (before, behind) = self.text.split_once(at).filter(|_| !self.quoted)?;
        let column = self.spot.column + before.chars().count() + 1;
        let spot = Spot { column, ..self.spot };
        Some((Field { text: before, ..*self }, Field { text: behind, spot, ..*self }))
    }

    /// A whole number of this range.
    pub fn number(&self, what: &str, range: &RangeInclusive<u32>) -> Result<u32, TextError> {
        let value = whole(self.text).filter(|value| range.contains(value) && !self.quoted);
        value.ok_or_else(|| self.error(self.no_number(what, range)))
    }

    fn no_number(&self, what: &str, range: &RangeInclusive<u32>) -> String {
        let text = self.text;
        let digits = text.replace(',', "");
        if self.quoted || !is_digits(&digits) {
            return format!("{what} must be a whole number, not \"{text}\"");
        }
        if digits != text {
            return format!("{what} has no commas: write {digits}, not \"{text}\"");
        }
        format!("{what} must be {} to {}, not {text}", range.start(), range.end())
    }

    /// A number with at most six decimals, in millionths.
    fn coordinate(&self) -> Result<i64, TextError> {
        let text = self.text;
        let (sign, size) = text.strip_prefix('-').map_or((1, text), |size| (-1, size));
        let most = FARTHEST * MILLION as u64;
        let value = decimal(size, 6).filter(|value| *value <= most && !self.quoted);
        value.map(|value| sign * value as i64).ok_or_else(|| {
            let comma = if text.contains(',') { "; it has a point and no comma" } else { "" };
            self.error(format!(
                "a coordinate is a number with at most 6 decimals and at most {FARTHEST} from 0, \
                 not \"{text}\"{comma}"
            ))
        })
    }
}

/// A name and the words behind it as one name. Single quotes around all of it go.
pub(super) fn between_quotes(first: &Field<'_>, others: &[Field<'_>]) -> String {
    let words: Vec<&str> = [first].into_iter().chain(others).map(|field| field.text).collect();
    let name = words.join(" ");
    let single = ['\'', '\u{2018}', '\u{2019}', '\u{201A}', '`'];
    let inner = name.strip_prefix(single).and_then(|name| name.strip_suffix(single));
    format!("\"{}\"", inner.unwrap_or(&name))
}

/// A number with at most so many decimals, as a whole number of its last place.
fn decimal(text: &str, places: usize) -> Option<u64> {
    let (units, part) = text.split_once('.').unwrap_or((text, "0"));
    if !is_digits(units) || !is_digits(part) || part.len() > places {
        return None;
    }
    format!("{units}{part:0<places$}").parse().ok()
}

pub(super) fn is_digits(text: &str) -> bool {
    !text.is_empty() && text.bytes().all(|byte| byte.is_ascii_digit())
}

/// A whole number, without the sign that number parsing would take.
pub(super) fn whole(text: &str) -> Option<u32> {
    is_digits(text).then(|| text.parse().ok()).flatten()
}
