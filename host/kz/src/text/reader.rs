//! Reads a text from its first line to its last. A line with a fault does not end the reading, so
//! that all faults are told.

use super::draft::Draft;
use super::error::{Spot, TextError};
use super::faults::{Faults, Found};
use super::fields::{Field, Fields};
use super::lines::Lines;
use super::statements::{known, say, unknown};
use super::{coordinates, guess, matrix, NamedDay, HEADING};

/// The day that a text describes. `found` are the faults that its bytes have.
pub(super) fn read(text: &str, found: Found) -> Result<NamedDay, Faults> {
    let mut reader = Reader { lines: Lines::of(text), draft: Draft::new(), found };
    let mut goes_on = match guess::no_lines(text) {
        Some(fault) => reader.gives_up(fault),
        None => reader.heading(),
    };
    while goes_on {
        goes_on = match reader.lines.next() {
            Some(fields) => reader.statement(fields),
            None => reader.without_legs(),
        };
    }
    let Reader { draft, found, .. } = reader;
    found.outcome(|| NamedDay { words: draft.day.words(), names: draft.names })
}

struct Reader<'t> {
    lines: Lines<'t>,
    draft: Draft,
    found: Found,
}

impl<'t> Reader<'t> {
    /// `day NAME`, where the name may be missing. Says whether it is worth to read on.
    fn heading(&mut self) -> bool {
        let Some(mut fields) = self.lines.next() else {
            let nothing = "there is nothing here; a day begins with the word day";
            return self.gives_up(self.lines.end().error(nothing));
        };
        let first = fields.peek().unwrap_or_default();
        if first.eq_ignore_ascii_case(HEADING) {
            let read = self.name_of_day(&mut fields);
            self.found.of_line(&mut fields, read);
            return true;
        }
        self.no_heading(first, fields)
    }

    /// Where a text begins with another word. A statement shows that a day is meant.
    fn no_heading(&mut self, first: &str, mut fields: Fields<'t>) -> bool {
        if let Some(fault) = guess::something_else(self.lines.text(), &fields) {
            return self.gives_up(fault);
        }
        if known(first).is_none() {
            return self.gives_up(guess::no_day(&mut fields));
        }
        let spot = fields.left().first().map_or(fields.end(), |field| field.spot);
        self.found.add(spot.error(format!(
            "a day begins with the word day, not \"{first}\": put a line with day and its name \
             before this one"
        )));
        self.statement(fields)
    }

    fn name_of_day(&mut self, fields: &mut Fields<'t>) -> Result<(), TextError> {
        let first = fields.next(HEADING)?;
        self.plainly(&first, HEADING);
        if fields.peek().is_some() {
            let name = fields.name("the name of the day")?;
            fields.name_ends(&name, fields.left().len())?;
            self.draft.names.day = name.text.to_string();
        }
        fields.finish()
    }

    /// Takes one statement. Says whether others may follow.
    fn statement(&mut self, mut fields: Fields<'t>) -> bool {
        let word = match fields.next("a statement") {
            Ok(word) => word,
            Err(fault) => return self.gap(fault),
        };
        let Some(statement) = known(word.text) else {
            return self.gap(word.error(unknown(word.text)));
        };
        self.plainly(&word, statement);
        if statement == "legs" {
            self.legs(word.spot, fields);
            return false;
        }
        let said = self.draft.say(statement, word.spot);
        let read = said.and_then(|()| say(&mut self.draft, statement, word.spot, &mut fields));
        let read = read.and_then(|()| fields.finish());
        self.found.of_line(&mut fields, read);
        true
    }

    /// Goes on behind a line of which nobody knows what it is to say.
    fn gap(&mut self, fault: TextError) -> bool {
        self.draft.has_gaps = true;
        self.found.add(fault);
        true
    }

    /// Asks that a statement is written in small letters and without quotes.
    fn plainly(&mut self, word: &Field<'_>, statement: &str) {
        let text = word.text;
        if word.quoted {
            self.found.add(word.error(format!("write {statement} without quotes")));
        } else if text != statement {
            let message = format!("write {statement} in small letters, not \"{text}\"");
            self.found.add(word.error(message));
        }
    }

    fn without_legs(&mut self) -> bool {
        let end = self.lines.end();
        self.missing(end);
        let legs = "the legs are missing: \"legs by matrix\" or \"legs by coordinates\"";
        self.gives_up(end.error(legs))
    }

    /// Reads no further than this fault.
    fn gives_up(&mut self, fault: TextError) -> bool {
        self.found.add(fault);
        false
    }

    fn missing(&mut self, legs: Spot) {
        for what in self.draft.missing() {
            self.found.add(legs.error(format!("a line with {what} is missing before the legs")));
        }
    }

    /// The legs, and that nothing stands behind them.
    fn legs(&mut self, spot: Spot, mut fields: Fields<'t>) {
        self.missing(spot);
        let read = self.legs_by(&mut fields);
        if read.is_err() {
            self.lines.skip();
        }
        self.found.of_line(&mut fields, read);
        if let Some(mut fields) = self.lines.next() {
            let behind = "the legs stand last, so nothing is expected behind them";
            let field = fields.next("a field");
            self.found.add(field.map_or_else(|broken| broken, |field| field.error(behind)));
        }
    }

    /// `by matrix` and its rows, or `by coordinates` and how to measure.
    fn legs_by(&mut self, fields: &mut Fields<'t>) -> Result<(), TextError> {
        fields.expect("by")?;
        let manner = fields.next("\"matrix\" or \"coordinates\"")?;
        match manner.text {
            "matrix" => {
                fields.finish()?;
                self.rows();
            }
            "coordinates" => {
                self.draft.day.legs = coordinates::read(&self.draft, fields, &mut self.found)?;
            }
            other => {
                return Err(manner.error(format!(
                    "legs are given by matrix or by coordinates, not by \"{other}\""
                )));
            }
        }
        Ok(())
    }

    /// The rows of a matrix. Where a place is unknown, no row is the one that is expected.
    fn rows(&mut self) {
        let Draft { day, names, has_gaps, .. } = &mut self.draft;
        if *has_gaps {
            self.lines.skip();
        } else {
            day.legs = matrix::read(names, &mut self.lines, &mut self.found);
        }
    }
}
