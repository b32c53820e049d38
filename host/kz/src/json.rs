//! Answers as JSON.

use std::fmt::{self, Display, Formatter, Write};

/// A JSON value. Numbers are whole and not negative, since all that is counted here is.
#[derive(Clone, Debug, PartialEq, Eq)]
pub enum Json {
    /// true or false.
    Truth(bool),
    /// A number.
    Number(u64),
    /// A string.
    Text(String),
    /// An array.
    List(Vec<Json>),
    /// An object, whose names are written in this order.
    Object(Vec<(&'static str, Json)>),
}

impl Json {
    /// The words of a day or plan, as eight hexadecimal digits each.
    pub fn words(words: &[u32]) -> Json {
        Json::List(words.iter().map(|word| Json::Text(format!("{word:08X}"))).collect())
    }

    /// An object with a warning behind its members, where there is one.
    pub fn warned(mut self, warning: Option<&str>) -> Json {
        if let (Json::Object(members), Some(warning)) = (&mut self, warning) {
            members.push(("warning", warning.into()));
        }
        self
    }
}

impl From<bool> for Json {
    fn from(truth: bool) -> Json {
        Json::Truth(truth)
    }
}

impl From<u64> for Json {
    fn from(number: u64) -> Json {
        Json::Number(number)
    }
}

impl From<u32> for Json {
    fn from(number: u32) -> Json {
        Json::Number(number.into())
    }
}

impl From<usize> for Json {
    fn from(number: usize) -> Json {
        Json::Number(number as u64)
    }
}

impl From<&str> for Json {
    fn from(text: &str) -> Json {
        Json::Text(text.to_string())
    }
}

impl Display for Json {
    fn fmt(&self, f: &mut Formatter<'_>) -> fmt::Result {
        match self {
            Json::Truth(truth) => write!(f, "{truth}"),
            Json::Number(number) => write!(f, "{number}"),
            Json::Text(text) => quoted(f, text),
            Json::List(items) => {
                f.write_char('[')?;
                separated(f, items, |f, item| item.fmt(f))?;
                f.write_char(']')
            }
            Json::Object(members) => {
                f.write_char('{')?;
                separated(f, members, |f, (name, value)| write!(f, "\"{name}\": {value}"))?;
                f.write_char('}')
            }
        }
    }
}

fn separated<T>(
    f: &mut Formatter<'_>,
    items: &[T],
    write: impl Fn(&mut Formatter<'_>, &T) -> fmt::Result,
) -> fmt::Result {
    for (index, item) in items.iter().enumerate() {
        f.write_str(if index == 0 { "" } else { ", " })?;
        write(f, item)?;
    }
    Ok(())
}

fn quoted(f: &mut Formatter<'_>, text: &str) -> fmt::Result {
    f.write_char('"')?;
    for character in text.chars() {
        match character {
            '"' => f.write_str("\\\"")?,
            '\\' => f.write_str("\\\\")?,
            '\n' => f.write_str("\\n")?,
            control if control < ' ' => write!(f, "\\u{:04x}", u32::from(control))?,
            plain => f.write_char(plain)?,
        }
    }
    f.write_char('"')
}

#[cfg(test)]
mod tests {
    use super::Json;

    #[test]
    fn quotes_and_control_characters_are_escaped() {
        let text = Json::from("a \"b\" \\ c\n\t");
        assert_eq!(text.to_string(), r#""a \"b\" \\ c\n\u0009""#);
    }

    #[test]
    fn lists_and_objects_have_commas_between_their_items_alone() {
        let object = Json::Object(vec![
            ("none", Json::List(vec![])),
            ("words", Json::words(&[0xA000_0001, 7])),
            ("settled", true.into()),
        ]);
        assert_eq!(
            object.to_string(),
            r#"{"none": [], "words": ["A0000001", "00000007"], "settled": true}"#
        );
    }
}
