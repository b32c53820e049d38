//! The text that bytes are. It is UTF-8; other encodings are told, for their letters would turn
//! into others.

use super::error::{Spot, TextError};
use super::faults::{Faults, Found};
use super::fields::Fields;
use super::{guess, reader, without_mark, NamedDay, HEADING};

/// The day that the bytes of a text describe.
///
/// # Errors
///
/// All that is wrong with the text, and where.
pub fn of_bytes(bytes: &[u8]) -> Result<NamedDay, Faults> {
    if is_utf16(bytes) {
        return Err(utf16().into());
    }
    let mut found = Found::default();
    let text = String::from_utf8_lossy(bytes);
    if let Err(error) = std::str::from_utf8(bytes) {
        found.add(no_utf8(bytes, error.valid_up_to()));
    }
    reader::read(without_mark(&text), found)
}

/// Why the bytes of a text are no plan.
pub fn no_plan(bytes: &[u8]) -> TextError {
    if is_utf16(bytes) {
        return utf16();
    }
    guess::no_plan(without_mark(&String::from_utf8_lossy(bytes)))
}

/// Whether a line begins as a day in text does, with the word day, perhaps in capital letters.
pub fn is_heading(line: &[u8]) -> bool {
    let line = String::from_utf8_lossy(line);
    Fields::of(1, &line).peek().is_some_and(|word| word.eq_ignore_ascii_case(HEADING))
}

/// Whether bytes are text in UTF-16: they begin with its mark, or every other one is 0.
pub fn is_utf16(bytes: &[u8]) -> bool {
    let head = &bytes[..bytes.len().min(32) & !1];
    let is_letter = |byte: u8| byte.is_ascii_graphic() || byte.is_ascii_whitespace();
    let every =
        |letter: usize| head.chunks(2).all(|pair| is_letter(pair[letter]) && pair[1 - letter] == 0);
    bytes.starts_with(b"\xFF\xFE")
        || bytes.starts_with(b"\xFE\xFF")
        || !head.is_empty() && (every(0) || every(1))
}

fn utf16() -> TextError {
    Spot { line: 1, column: 1 }.error("this text is saved as UTF-16: save it as UTF-8")
}

/// The fault of the byte at this place, before which all is UTF-8.
fn no_utf8(bytes: &[u8], place: usize) -> TextError {
    let before = String::from_utf8_lossy(&bytes[..place]);
    let before = without_mark(&before);
    let line = before.matches('\n').count() + 1;
    let column = before.rsplit('\n').next().unwrap_or("").chars().count() + 1;
    let byte = bytes[place];
    Spot { line, column }.error(format!(
        "the byte {byte:02X} is no UTF-8; the text seems to be saved as Latin-1 or Windows-1252: \
         save it as UTF-8"
    ))
}
