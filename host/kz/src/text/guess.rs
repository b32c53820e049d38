//! What a text is that is no day, or no plan, and what to do with it.

use super::error::{Spot, TextError};
use super::fields::Fields;
use super::statements::known;
use super::HEADING;
use crate::solomon;

const GUIDE: &str = "the guide shows what a day in text looks like";

/// The fault of a text that is something else than a day, by its first lines. These are the fields
/// of the first.
pub(super) fn something_else(text: &str, fields: &Fields<'_>) -> Option<TextError> {
    let spot = Spot { line: fields.end().line, column: 1 };
    let mut lines = text.lines().skip(spot.line - 1).map(str::trim);
    let form = other_form(lines.next().unwrap_or(""), lines.next().unwrap_or(""))?;
    Some(spot.error(format!("this looks like {form}, not like a day in text; {GUIDE}")))
}

/// The fault of a text whose first line, these fields, begins with no word that a day has.
pub(super) fn no_day(fields: &mut Fields<'_>) -> TextError {
    match fields.next("the word day") {
        Ok(first) => {
            let word = first.text;
            first.error(format!("a day begins with the word day, not \"{word}\"; {GUIDE}"))
        }
        Err(broken) => broken,
    }
}

/// The fault of a text whose lines do not end as other programs end theirs.
pub(super) fn no_lines(text: &str) -> Option<TextError> {
    let end = text.trim_end().find('\r').filter(|_| !text.contains('\n'))?;
    let spot = Spot { line: 1, column: text[..end].chars().count() + 1 };
    let cure = "save it with the line ends of Windows or Unix";
    Some(spot.error(format!("the lines of this text end with a carriage return alone: {cure}")))
}

/// The fault of a text that has no words of a plan.
pub(super) fn no_plan(text: &str) -> TextError {
    let says = |line: &str| !line.is_empty() && !line.starts_with('#');
    let mut lines = (1..).zip(text.lines().map(str::trim)).filter(|(_, line)| says(line));
    let (line, first) = lines.next().unwrap_or((1, ""));
    let second = lines.next().map_or("", |(_, line)| line);
    let spot = Spot { line, column: 1 };
    let word = first.split_whitespace().next().unwrap_or("");
    let wanted = "a plan is wanted here, which kz plan and kz build write";
    if word.eq_ignore_ascii_case(HEADING) {
        return spot.error(format!("this is a day in text; {wanted}"));
    }
    if solomon::is_instance(text.as_bytes()) {
        return spot.error(format!("this is a Solomon instance; {wanted}"));
    }
    if let Some(form) = other_form(first, second) {
        return spot.error(format!("this looks like {form}; {wanted}"));
    }
    spot.error(format!("\"{word}\" is no word of eight hexadecimal digits; {wanted}"))
}

/// What a text is that begins with these lines. A table has as many separators on the second, and no
/// statement there.
fn other_form(first: &str, second: &str) -> Option<&'static str> {
    let columns = |line: &str, separator| line.matches(separator).count();
    let is_table = |separator: char| {
        let count = columns(first, separator);
        let goes_on = count > 1 && count == columns(second, separator);
        first_word(first).contains(separator) || goes_on && known(first_word(second)).is_none()
    };
    if first.starts_with(['{', '[']) {
        Some("JSON")
    } else if first.starts_with('<') {
        Some("a web page or XML")
    } else if [',', ';', '\t'].into_iter().any(is_table) {
        Some("a table that a spreadsheet wrote (CSV)")
    } else {
        None
    }
}

fn first_word(line: &str) -> &str {
    line.split(' ').next().unwrap_or("")
}
