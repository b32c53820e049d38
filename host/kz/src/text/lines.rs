//! The lines of a text.

use super::error::Spot;
use super::fields::Fields;

/// The lines of a text that say something.
pub(super) struct Lines<'t> {
    lines: std::iter::Enumerate<std::str::Lines<'t>>,
    text: &'t str,
}

impl<'t> Lines<'t> {
    pub fn of(text: &'t str) -> Lines<'t> {
        Lines { lines: text.lines().enumerate(), text }
    }

    /// The next line that has a field.
    pub fn next(&mut self) -> Option<Fields<'t>> {
        self.lines.find_map(|(index, line)| {
            Some(Fields::of(index + 1, line)).filter(|fields| !fields.is_empty())
        })
    }

    /// Passes over all lines that are left.
    pub fn skip(&mut self) {
        self.lines = "".lines().enumerate();
    }

    /// The whole text.
    pub fn text(&self) -> &'t str {
        self.text
    }

    /// The spot behind the whole text.
    pub fn end(&self) -> Spot {
        let last = self.text.lines().last().unwrap_or("");
        Spot { line: self.text.lines().count().max(1), column: last.chars().count() + 1 }
    }
}
