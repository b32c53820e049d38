//! What the bytes of a file are, by their content: raw words, hexadecimal lines, a Solomon instance,
//! or other text.
//!
//! Nothing that is accepted or lawful is mistaken. The fourth byte of a raw day is 10 in hexadecimal
//! digits and the third is 0; of a raw plan the second and third of each word are 0. Neither is
//! text, and no other program's files begin so. Hexadecimal lines begin with a word, or have more
//! words than other lines. No line of words, and none that a day in text can have, is the word VEHICLE
//! alone, which a Solomon instance has.

use crate::{solomon, text};

/// What bytes are.
#[derive(Clone, Copy, Debug, PartialEq, Eq, Hash)]
pub enum Form {
    /// Words, low byte first.
    Raw,
    /// Words of eight hexadecimal digits, one a line.
    Lines,
    /// An instance of the public Solomon text form.
    Solomon,
    /// Text of another kind.
    Text,
    /// A file of another program, and what it is.
    Foreign(&'static str),
}

/// The first bytes of files that a user may take for a day.
const FOREIGN: [(&[u8], &str); 4] = [
    (b"PK\x03\x04", "a zip file, as spreadsheets are (xlsx, ods)"),
    (b"\xD0\xCF\x11\xE0", "a spreadsheet or document of an older Office (xls, doc)"),
    (b"%PDF", "a PDF"),
    (b"\x1F\x8B", "a file that gzip made"),
];

/// The form of these bytes.
pub fn of(bytes: &[u8]) -> Form {
    if let Some((_, what)) = FOREIGN.iter().find(|(mark, _)| bytes.starts_with(mark)) {
        Form::Foreign(what)
    } else if text::is_utf16(bytes) {
        Form::Text
    } else if !is_readable(bytes) {
        Form::Raw
    } else if solomon::is_instance(bytes) {
        Form::Solomon
    } else if has_words(bytes) {
        Form::Lines
    } else {
        Form::Text
    }
}

/// How many bytes show whether a file can be read by people.
const HEAD: usize = 64;

/// Whether there are bytes, and hardly any control characters among the first of them: one, or one
/// in sixteen. A slip of the hand can leave one in a text; words have one in four and more.
fn is_readable(bytes: &[u8]) -> bool {
    let head = &bytes[..bytes.len().min(HEAD)];
    let is_white = |byte: u8| matches!(byte, b'\t'..=b'\r');
    let controls = head.iter().filter(|byte| byte.is_ascii_control() && !is_white(**byte)).count();
    !head.is_empty() && controls <= 1.max(head.len() / 16)
}

/// How many lines show whether a file has a word on each.
const FIRST_LINES: usize = 20;

fn has_words(bytes: &[u8]) -> bool {
    let lines = without_mark(bytes).split(|byte| *byte == b'\n').map(<[u8]>::trim_ascii);
    let first: Vec<bool> =
        lines.filter(|line| !line.is_empty()).take(FIRST_LINES).map(is_word).collect();
    let words = first.iter().filter(|is_word| **is_word).count();
    first.first() != Some(&false) || 2 * words > first.len()
}

/// Eight digits; a sign, which number parsing would take, is none.
pub fn is_word(line: &[u8]) -> bool {
    line.len() == 8 && line.iter().all(u8::is_ascii_hexdigit)
}

/// Some editors put a mark in front of a text that says how it is encoded.
pub fn without_mark(bytes: &[u8]) -> &[u8] {
    bytes.strip_prefix(b"\xEF\xBB\xBF").unwrap_or(bytes)
}

#[cfg(test)]
mod tests {
    use super::{of, Form};

    #[test]
    fn a_few_bytes_show_the_form() {
        for (bytes, form) in [
            (&b""[..], Form::Raw),
            (b"\x02\x01\x00\x10", Form::Raw),
            (b"\x01\x00\x00\xA0\x01\x00\x00\xB0", Form::Raw),
            (b"\n \r\n", Form::Lines),
            (b"A0000001\nB000000G\n", Form::Lines),
            (b"A000001\nB0000001\nE0000000\n", Form::Lines),
            (b"\xEF\xBB\xBFa0000001", Form::Lines),
            (b"A000001\n", Form::Text),
            (b"day", Form::Text),
            (b"Day \xE9\x07", Form::Text),
            (b"\"day", Form::Text),
            (b"d\0a\0y\0", Form::Text),
            (b"\0d\0a\0y", Form::Text),
            (b"\xFF\xFEd\0a\0y\0", Form::Text),
            (b"name;open\nday;3\n", Form::Text),
            (b"C101\n\nVEHICLE\n", Form::Solomon),
            (b"A0000001\r\nVEHICLE\r\n", Form::Solomon),
            (b"day C101\n\nVEHICLE\n", Form::Text),
            (b"C101\n\nvehicle\n", Form::Text),
        ] {
            assert_eq!(of(bytes), form, "{bytes:?}");
        }
        let xlsx = b"PK\x03\x04\x14\x00\x06\x00\x08\x00\x00\x00!\x00";
        assert_eq!(of(xlsx), Form::Foreign("a zip file, as spreadsheets are (xlsx, ods)"));
    }
}
