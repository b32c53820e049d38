//! One line of a text as fields: words between blanks, or names between quotes. What stands behind
//! `#` outside of quotes is a comment.

use super::error::{Spot, TextError};

/// A field and where it stands.
#[derive(Clone, Copy, Debug)]
pub(super) struct Field<'t> {
    pub text: &'t str,
    pub spot: Spot,
    pub quoted: bool,
}

impl Field<'_> {
    pub fn error(&self, message: impl Into<String>) -> TextError {
        self.spot.error(message)
    }
}

/// The fields of a line that were not taken yet.
#[derive(Debug)]
pub(super) struct Fields<'t> {
    fields: std::vec::IntoIter<Field<'t>>,
    end: Spot,
    /// Whether a comment stands behind the last field.
    commented: bool,
    /// Why the line could not be taken apart behind its last field.
    broken: Option<TextError>,
    /// Faults of values that leave no doubt where the next field begins.
    noted: Vec<TextError>,
}

impl<'t> Fields<'t> {
    /// Takes a line apart, up to where it is broken.
    pub fn of(line: usize, text: &'t str) -> Fields<'t> {
        let mut cut = Cut { line, column: 1, rest: text };
        let mut fields = Vec::new();
        let mut broken = None;
        cut.skip(char::is_whitespace);
        while broken.is_none() && !cut.rest.is_empty() && !cut.rest.starts_with('#') {
            match cut.field() {
                Ok(field) => fields.push(field),
                Err(error) => broken = Some(error),
            }
            cut.skip(char::is_whitespace);
        }
        let end = fields.last().map_or(cut.spot(), behind);
        let commented = cut.rest.starts_with('#');
        Fields { fields: fields.into_iter(), end, commented, broken, noted: Vec::new() }
    }

    /// Whether the line says nothing.
    pub fn is_empty(&self) -> bool {
        self.peek().is_none() && self.broken.is_none()
    }

    /// The next field as it is written, without taking it.
    pub fn peek(&self) -> Option<&'t str> {
        self.left().first().map(|field| field.text)
    }

    /// The fields that were not taken yet.
    pub fn left(&self) -> &[Field<'t>] {
        self.fields.as_slice()
    }

    /// The spot behind the last field.
    pub fn end(&self) -> Spot {
        self.end
    }

    /// Takes the next field, which says `what`.
    pub fn next(&mut self, what: &str) -> Result<Field<'t>, TextError> {
        self.next_of(|| what.to_string())
    }

    /// Takes the next field. What it says is asked for only where it is missing.
    pub fn next_of(&mut self, what: impl Fn() -> String) -> Result<Field<'t>, TextError> {
        let comment = if self.commented { " before the #, which begins a comment" } else { "" };
        let missing = || self.end.error(format!("{} is missing{comment}", what()));
        self.fields.next().ok_or_else(|| self.broken.take().unwrap_or_else(missing))
    }

    /// Takes a word that can be no other.
    pub fn expect(&mut self, word: &str) -> Result<(), TextError> {
        let field = self.next_of(|| format!("\"{word}\""))?;
        if field.quoted || field.text != word {
            let text = field.text;
            return Err(field.error(format!("\"{word}\" is expected here, not \"{text}\"")));
        }
        Ok(())
    }

    /// Takes the next field where it is this word.
    pub fn take(&mut self, word: &str) -> Option<Field<'t>> {
        let is_it = self.left().first().is_some_and(|field| !field.quoted && field.text == word);
        is_it.then(|| self.fields.next()).flatten()
    }

    /// Passes over what is left of the line.
    pub fn skip(&mut self) {
        self.fields = Vec::new().into_iter();
        self.broken = None;
    }

    /// Asks that nothing is left.
    pub fn finish(&mut self) -> Result<(), TextError> {
        match self.fields.next() {
            None => self.broken.take().map_or(Ok(()), Err),
            Some(field) => {
                let text = field.text;
                Err(field.error(format!("nothing more is expected on this line, not \"{text}\"")))
            }
        }
    }

    /// The value of a field. A fault of it is noted, and the reading goes on with another value.
    pub fn noting<T>(&mut self, read: Result<T, TextError>, instead: T) -> T {
        read.unwrap_or_else(|fault| {
            self.noted.push(fault);
            instead
        })
    }

    pub fn has_noted(&self) -> bool {
        !self.noted.is_empty()
    }

    /// The faults that were noted.
    pub fn take_noted(&mut self) -> Vec<TextError> {
        std::mem::take(&mut self.noted)
    }
}

/// Where the character behind a field stands.
fn behind(field: &Field<'_>) -> Spot {
    let quotes = if field.quoted { 2 } else { 0 };
    let width = field.text.chars().count() + quotes;
    Spot { column: field.spot.column + width, ..field.spot }
}

/// What is left of a line that is being taken apart.
struct Cut<'t> {
    line: usize,
    column: usize,
    rest: &'t str,
}

impl<'t> Cut<'t> {
    fn spot(&self) -> Spot {
        Spot { line: self.line, column: self.column }
    }

    /// Takes the characters up to the first that is not such a one.
    fn skip(&mut self, such: impl Fn(char) -> bool) -> &'t str {
        let length = self.rest.find(|c| !such(c)).unwrap_or(self.rest.len());
        let (taken, rest) = self.rest.split_at(length);
        self.column += taken.chars().count();
        self.rest = rest;
        taken
    }

    fn field(&mut self) -> Result<Field<'t>, TextError> {
        let spot = self.spot();
        let quoted = self.rest.starts_with('"');
        let text = if quoted {
            self.quoted(spot)?
        } else {
            self.skip(|c| !c.is_whitespace() && c != '#' && c != '"')
        };
        if let Some(curly) = text.chars().next().filter(|c| !quoted && is_curly(*c)) {
            return Err(spot.error(straight(curly)));
        }
        if self.rest.starts_with(|c: char| !c.is_whitespace() && c != '#') {
            return Err(self.spot().error("a blank is missing before or behind a quote"));
        }
        if text.chars().any(char::is_control) {
            return Err(spot.error("a control character stands in this field"));
        }
        Ok(Field { text, spot, quoted })
    }

    fn quoted(&mut self, spot: Spot) -> Result<&'t str, TextError> {
        self.one();
        let text = self.skip(|c| c != '"');
        if self.rest.is_empty() {
            let curly = text.chars().find(|c| is_curly(*c)).map(straight);
            return Err(spot.error(curly.unwrap_or("the closing quote is missing".to_string())));
        }
        self.one();
        Ok(text)
    }

    /// Takes the quote in front.
    fn one(&mut self) {
        self.rest = &self.rest[1..];
        self.column += 1;
    }
}

/// The double quotes that text processors put in place of straight ones.
pub(super) fn is_curly(c: char) -> bool {
    matches!(c, '\u{201C}'..='\u{201F}' | '\u{AB}' | '\u{BB}')
}

fn straight(curly: char) -> String {
    format!("a name stands between straight quotes, \" and \", not {curly}")
}
