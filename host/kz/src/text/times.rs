//! Windows and their times. A time is written as on a clock; minutes from midnight need the word
//! `min`, for 6-10 and 0600-1000 could be meant either way.

use super::error::TextError;
use super::fields::{Field, Fields};
use super::values::{is_digits, whole};
use crate::clock;
use crate::day::{range, Window};

/// What is read on with where a window is wrong.
const NO_WINDOW: Window = Window { opening: 0, closing: 0 };

/// The word behind minutes.
const MARK: &str = "min";

/// What text processors and spreadsheets make of a hyphen.
const DASHES: [char; 5] = ['\u{2010}', '\u{2011}', '\u{2013}', '\u{2014}', '\u{2212}'];

impl Fields<'_> {
    /// A window, as 07:00-09:30 or as 420-570 min.
    pub fn window(&mut self, what: &str) -> Result<Window, TextError> {
        let field = self.next(what)?;
        let parts = field.split('-').filter(|(_, closing)| !closing.text.is_empty());
        let Some((opening, closing)) = parts else {
            let goes_on = self.peek().is_some_and(|next| next.starts_with('-'));
            return Err(no_window(what, &field, goes_on));
        };
        let read = if is_digits(opening.text) && is_digits(closing.text) {
            self.minutes(&field, opening, closing)
        } else if let Some(mark) = self.take(MARK) {
            Err(mark.error("a window with colons has no \"min\" behind it"))
        } else {
            of_clock(&field, opening, closing)
        };
        Ok(self.noting(read, NO_WINDOW))
    }

    /// Minutes from midnight, which the word behind them says.
    fn minutes(
        &mut self,
        field: &Field<'_>,
        opening: Field<'_>,
        closing: Field<'_>,
    ) -> Result<Window, TextError> {
        if self.take(MARK).is_none() {
            return Err(field.error(unmarked(field.text, opening.text, closing.text)));
        }
        let minutes = |part: Field<'_>| in_the_day(&part, whole(part.text).unwrap_or(u32::MAX));
        in_order((opening, minutes(opening)?), (closing, minutes(closing)?))
    }
}

/// Why a field is no window. `goes_on` says that the next field begins with a hyphen.
fn no_window(what: &str, field: &Field<'_>, goes_on: bool) -> TextError {
    let text = field.text;
    if goes_on || text.ends_with('-') {
        return field.error(format!("{what} has no blanks within it: write it as 07:00-09:30"));
    }
    if text.contains(DASHES) && !field.quoted {
        let write = text.replace(DASHES, "-");
        return field.error(format!("{what} has a plain hyphen: write {write}, not \"{text}\""));
    }
    field.error(format!("{what} is written as 07:00-09:30, not \"{text}\""))
}

/// A window by the clock, as 07:00-09:30.
fn of_clock(
    field: &Field<'_>,
    opening: Field<'_>,
    closing: Field<'_>,
) -> Result<Window, TextError> {
    let minutes = closing.text.strip_suffix(MARK).filter(|closing| is_digits(closing));
    if let (Some(closing), true) = (minutes, is_digits(opening.text)) {
        let (opening, text) = (opening.text, field.text);
        return Err(field.error(format!(
            "a blank stands before \"min\": write {opening}-{closing} min, not \"{text}\""
        )));
    }
    in_order((opening, time(&opening)?), (closing, time(&closing)?))
}

/// Both ends of a window, each with the field that says it.
fn in_order(opening: (Field<'_>, u32), closing: (Field<'_>, u32)) -> Result<Window, TextError> {
    let window = Window { opening: opening.1, closing: closing.1 };
    if window.opening > window.closing {
        let (early, late) = (opening.0.text, closing.0.text);
        return Err(closing.0.error(format!(
            "the closing {late} is before the opening {early}; a day ends at 24:00"
        )));
    }
    Ok(window)
}

/// Minutes from midnight, written as 07:35.
fn time(field: &Field<'_>) -> Result<u32, TextError> {
    let text = field.text;
    let minutes = text.split_once(':').and_then(|(hours, minutes)| minute(hours, minutes));
    let written = || field.error(format!("a time is written as 07:35, not \"{text}\""));
    in_the_day(field, minutes.ok_or_else(written)?)
}

fn in_the_day(field: &Field<'_>, minutes: u32) -> Result<u32, TextError> {
    let late = || field.error(format!("{} is later than 24:00, which is minute 1440", field.text));
    Some(minutes).filter(|minutes| range::MINUTE.contains(minutes)).ok_or_else(late)
}

/// The minutes that a clock's hours and minutes come to, where they are written as on a clock.
fn minute(hours: &str, minutes: &str) -> Option<u32> {
    if hours.len() > 2 || minutes.len() != 2 {
        return None;
    }
    let in_hour = whole(minutes).filter(|minutes| *minutes < 60)?;
    Some(whole(hours)? * 60 + in_hour)
}

/// What to write for a window of bare digits.
fn unmarked(text: &str, opening: &str, closing: &str) -> String {
    let window = meant(opening, closing);
    let write = window.map_or("it as 07:00-09:30, or as 420-570 min".to_string(), |window| {
        format!("{}, or {}-{} min", clock::window(window), window.opening, window.closing)
    });
    format!("\"{text}\" has neither colons nor \"min\" behind it: write {write}")
}

/// What bare digits most likely mean: hours, a clock without its colon, or else minutes.
fn meant(opening: &str, closing: &str) -> Option<Window> {
    let hours = |text: &str| minute(text, "00");
    let without_colon = |text: &str| {
        let (hours, minutes) = text.split_at_checked(text.len().checked_sub(2)?)?;
        minute(hours, minutes)
    };
    let both = |read: &dyn Fn(&str) -> Option<u32>| {
        let window = Window { opening: read(opening)?, closing: read(closing)? };
        let in_order = window.opening <= window.closing;
        Some(window).filter(|window| in_order && range::MINUTE.contains(&window.closing))
    };
    both(&hours).or_else(|| both(&without_colon)).or_else(|| both(&whole))
}

/// Whether a field looks like a window, right or wrong: digits on both sides of a hyphen.
pub(super) fn looks_like_window(field: &Field<'_>) -> bool {
    let digit = |byte: &u8| byte.is_ascii_digit();
    field.split('-').is_some_and(|(opening, closing)| {
        let (opening, closing) = (opening.text.as_bytes(), closing.text.as_bytes());
        opening.first().is_some_and(digit) && closing.first().is_some_and(digit)
    })
}

#[cfg(test)]
mod tests {
    use super::meant;

    #[test]
    fn bare_digits_are_guessed_as_a_planner_means_them() {
        let guess = |opening, closing| {
            meant(opening, closing).map(|window| (window.opening, window.closing))
        };
        assert_eq!(guess("6", "10"), Some((360, 600)));
        assert_eq!(guess("0600", "1000"), Some((360, 600)));
        assert_eq!(guess("630", "1015"), Some((390, 615)));
        assert_eq!(guess("0", "24"), Some((0, 1440)));
        assert_eq!(guess("0", "50"), Some((0, 50)));
        assert_eq!(guess("0", "100"), Some((0, 100)));
        assert_eq!(guess("480", "1020"), Some((480, 1020)));
        assert_eq!(guess("10", "6"), None);
        assert_eq!(guess("0", "99999"), None);
    }
}
