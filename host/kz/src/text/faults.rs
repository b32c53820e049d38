//! All that is wrong with a text, so that a planner mends it in one go.

use std::error::Error;
use std::fmt;

use super::error::TextError;
use super::fields::Fields;
use crate::json::Json;

/// So many faults are told. The others are counted.
const MOST_TOLD: usize = 20;

/// What is wrong with a text. There is at least one fault.
#[derive(Clone, Debug, PartialEq, Eq)]
pub struct Faults {
    told: Vec<TextError>,
    more: usize,
}

impl Faults {
    /// The fault that stands first in the text.
    pub fn first(&self) -> &TextError {
        &self.told[0]
    }

    /// The faults, at most twenty, in the order of the text.
    pub fn told(&self) -> &[TextError] {
        &self.told
    }

    /// How many there are beside those that are told.
    pub fn more(&self) -> usize {
        self.more
    }

    /// The faults as a list of objects.
    pub fn json(&self) -> Json {
        let fault = |fault: &TextError| {
            Json::Object(vec![
                ("line", fault.line.into()),
                ("column", fault.column.into()),
                ("message", fault.message.as_str().into()),
            ])
        };
        Json::List(self.told.iter().map(fault).collect())
    }
}

impl From<TextError> for Faults {
    fn from(fault: TextError) -> Faults {
        Faults { told: vec![fault], more: 0 }
    }
}

impl Error for Faults {}

impl fmt::Display for Faults {
    /// The first fault, and each other one on a line of its own.
    fn fmt(&self, f: &mut fmt::Formatter<'_>) -> fmt::Result {
        write!(f, "{}", self.first())?;
        for fault in &self.told[1..] {
            write!(f, "\n    {fault}")?;
        }
        match self.more {
            0 => Ok(()),
            more => write!(f, "\n    and {more} more"),
        }
    }
}

/// The faults that were found so far.
#[derive(Debug, Default)]
pub(super) struct Found {
    told: Vec<TextError>,
    more: usize,
}

impl Found {
    pub fn add(&mut self, fault: TextError) {
        if self.told.len() < MOST_TOLD {
            self.told.push(fault);
        } else {
            self.more += 1;
        }
    }

    /// Takes the faults of a line, and how its reading ended.
    pub fn of_line(&mut self, fields: &mut Fields<'_>, read: Result<(), TextError>) {
        for fault in fields.take_noted().into_iter().chain(read.err()) {
            self.add(fault);
        }
    }

    pub fn is_empty(&self) -> bool {
        self.told.is_empty()
    }

    /// What was read, if there is no fault.
    pub fn outcome<T>(mut self, read: impl FnOnce() -> T) -> Result<T, Faults> {
        if self.is_empty() {
            return Ok(read());
        }
        self.told.sort_by_key(|fault| (fault.line, fault.column));
        Err(Faults { told: self.told, more: self.more })
    }
}
