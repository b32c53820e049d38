//! A place that the library refuses: where it stands, and what belongs there.

use super::layout::{fields, lines, Line};
use crate::form::without_mark;

/// What belongs at a place of an instance.
#[derive(Clone, Copy, Debug, PartialEq, Eq)]
pub enum Wanted {
    /// A line, and the text ends before it.
    Line(Line),
    /// A field of a line, counted from 0.
    Field(Line, usize),
    /// Nothing: the line has all its fields.
    Nothing,
}

/// A place of an instance.
#[derive(Debug)]
pub struct Place<'t> {
    /// The line, from 1.
    pub line: usize,
    /// The character in the line, from 1.
    pub column: usize,
    /// What belongs there.
    pub wanted: Wanted,
    /// The fields of its line, those before the place.
    pub before: Vec<&'t [u8]>,
    /// The field that begins there, or nothing where one is missing.
    pub found: &'t [u8],
}

impl<'t> Place<'t> {
    /// The place of this byte, or of the text's end.
    pub fn of(text: &'t [u8], byte: usize) -> Place<'t> {
        let (head, tail) = text.split_at(byte.min(text.len()));
        let is_end = |byte: &u8| *byte == b'\n';
        let start = head.iter().rposition(is_end).map_or(0, |end| end + 1);
        let (earlier, begun) = head.split_at(start);
        let before: Vec<&[u8]> = fields(begun).collect();
        let rest = tail.split(is_end).next().unwrap_or_default();
        let found = fields(rest).next().unwrap_or_default();
        let shown = if start == 0 { without_mark(begun) } else { begun };
        Place {
            line: 1 + earlier.iter().filter(|byte| is_end(byte)).count(),
            column: 1 + String::from_utf8_lossy(shown).chars().count(),
            wanted: wanted(lines(earlier).count(), before.len(), found.is_empty()),
            before,
            found,
        }
    }
}

/// What belongs behind so many lines and, on the next, so many fields.
fn wanted(lines: usize, fields: usize, missing: bool) -> Wanted {
    let line = Line::behind(lines);
    let all_there = fields > 0 && line.fields().is_none_or(|all| fields >= all);
    match (all_there, missing) {
        (true, true) => Wanted::Line(Line::behind(lines + 1)),
        (true, false) => Wanted::Nothing,
        (false, true) if fields == 0 => Wanted::Line(line),
        (false, _) => Wanted::Field(line, fields),
    }
}
