//! What is wrong with a text, and where.

use std::error::Error;
use std::fmt;

use crate::clock::shortened;

/// No message has more characters. What a file that is no day has on one line can be anything.
const LONGEST: usize = 300;

/// One thing that is wrong with a text.
#[derive(Clone, Debug, PartialEq, Eq)]
pub struct TextError {
    /// The line, from 1.
    pub line: usize,
    /// The character in the line, from 1.
    pub column: usize,
    /// One plain sentence.
    pub message: String,
}

impl Error for TextError {}

impl fmt::Display for TextError {
    fn fmt(&self, f: &mut fmt::Formatter<'_>) -> fmt::Result {
        write!(f, "line {}, column {}: {}", self.line, self.column, self.message)
    }
}

/// A place in a text, to be named later in an error.
#[derive(Clone, Copy, Debug, PartialEq, Eq)]
pub(super) struct Spot {
    pub line: usize,
    pub column: usize,
}

impl Spot {
    pub fn error(self, message: impl Into<String>) -> TextError {
        let message = shortened(&message.into(), LONGEST);
        TextError { line: self.line, column: self.column, message }
    }
}
