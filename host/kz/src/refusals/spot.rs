//! Where in a file a fault stands.

use std::fmt::{self, Display, Formatter};

/// A place in a file.
#[derive(Clone, Debug, PartialEq, Eq)]
pub enum Spot {
    /// A word, counted from 0, and its line where the file has a line for each word.
    Word {
        /// The word.
        word: usize,
        /// The line, from 1.
        line: Option<usize>,
        /// The file.
        file: String,
    },
    /// A byte of a text, counted from 0.
    Byte {
        /// The byte.
        byte: u64,
        /// The line, from 1.
        line: usize,
        /// The character in the line, from 1.
        column: usize,
        /// The text.
        file: String,
    },
    /// Behind the last word of a file.
    End(String),
    /// A file as a whole.
    File(String),
    /// The line of a day's text that says what a stop or tip asks for.
    Said {
        /// The stop or tip.
        what: String,
        /// The line, from 1.
        line: usize,
        /// The text.
        file: String,
    },
}

impl Spot {
    /// The line in its file, where it has one.
    pub fn line(&self) -> Option<usize> {
        match self {
            Spot::Word { line, .. } => *line,
            Spot::Said { line, .. } | Spot::Byte { line, .. } => Some(*line),
            Spot::End(_) | Spot::File(_) => None,
        }
    }
}

impl Display for Spot {
    fn fmt(&self, f: &mut Formatter<'_>) -> fmt::Result {
        match self {
            Spot::Word { word, line: Some(line), file } => {
                write!(f, "word {word}, line {line} of {file}")
            }
            Spot::Word { word, line: None, file } => write!(f, "word {word} of {file}"),
            Spot::Byte { byte, line, column, file } => {
                write!(f, "byte {byte}, line {line}, column {column} of {file}")
            }
            Spot::End(file) => write!(f, "at the end of {file}"),
            Spot::File(file) => f.write_str(file),
            Spot::Said { what, line, file } => write!(f, "{what} is on line {line} of {file}"),
        }
    }
}
