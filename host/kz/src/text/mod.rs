//! The plain text form of a day, which docs/FORMAT.md describes: read into a day's words and the
//! names of its places, and written from them.

mod bytes;
mod coordinates;
mod degrees;
mod draft;
mod error;
mod faults;
mod fields;
mod guess;
mod lines;
mod matrix;
mod measure;
mod names;
mod places;
mod reader;
mod statements;
mod times;
mod values;
mod write;

pub use bytes::{is_heading, is_utf16, no_plan, of_bytes};
pub use error::TextError;
pub use faults::Faults;
pub use names::Names;
pub use places::PlaceLines;
pub use write::write;

use faults::Found;

/// A day and the names that its text gives to the places.
#[derive(Clone, Debug, PartialEq, Eq)]
pub struct NamedDay {
    /// The words of the day file.
    pub words: Vec<u32>,
    /// The names.
    pub names: Names,
}

/// The word that a day in text begins with.
const HEADING: &str = "day";

/// The day that a text describes. `kazhuvendi::judge` accepts its words.
///
/// # Errors
///
/// The places of the text that are not as docs/FORMAT.md asks, and what is wrong there.
pub fn parse(text: &str) -> Result<NamedDay, Faults> {
    reader::read(without_mark(text), Found::default())
}

/// Some editors put a mark in front of a text that says how it is encoded.
fn without_mark(text: &str) -> &str {
    text.strip_prefix('\u{FEFF}').unwrap_or(text)
}
