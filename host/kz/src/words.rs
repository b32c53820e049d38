//! Words as files have them: raw bytes, low byte first, or hexadecimal lines, one word a line. A file
//! of no bytes has no words either way.

use crate::form::{self, Form};

/// Why bytes are no words.
#[derive(Debug, PartialEq, Eq)]
pub enum NoWords {
    /// Raw bytes end inside a word, behind so many whole words.
    CutAt(u64),
    /// A line is no word, and which line it is, from 1.
    Line(usize, String),
    /// They are text, and no hexadecimal lines.
    Text,
    /// They are a file of another program, and what it is.
    Foreign(&'static str),
}

/// The words of a file.
pub fn read(bytes: &[u8]) -> Result<Vec<u32>, NoWords> {
    match form::of(bytes) {
        Form::Foreign(what) => return Err(NoWords::Foreign(what)),
        Form::Text | Form::Solomon => return Err(NoWords::Text),
        Form::Lines => return hexadecimal(bytes),
        Form::Raw => {}
    }
    match bytes.as_chunks() {
        (words, []) => Ok(words.iter().map(|word| u32::from_le_bytes(*word)).collect()),
        (words, _) => Err(NoWords::CutAt(words.len() as u64)),
    }
}

/// The line on which a word stands, from 1, where the bytes are hexadecimal lines.
pub fn line_of(bytes: &[u8], index: usize) -> Option<usize> {
    let text = (form::of(bytes) == Form::Lines).then(|| String::from_utf8_lossy(bytes))?;
    let mut lines = (1..).zip(text.lines()).filter(|(_, line)| !line.trim().is_empty());
    lines.nth(index).map(|(number, _)| number)
}

/// The words of hexadecimal lines. Lines without anything are passed over.
fn hexadecimal(bytes: &[u8]) -> Result<Vec<u32>, NoWords> {
    let text = String::from_utf8_lossy(form::without_mark(bytes));
    let lines = text.lines().map(str::trim).enumerate().filter(|(_, line)| !line.is_empty());
    lines.map(|(index, line)| word(line).ok_or_else(|| no_word(index, line))).collect()
}

fn word(line: &str) -> Option<u32> {
    form::is_word(line.as_bytes()).then(|| u32::from_str_radix(line, 16).ok()).flatten()
}

fn no_word(index: usize, line: &str) -> NoWords {
    let beginning: String = line.chars().take(20).collect();
    NoWords::Line(index + 1, beginning)
}

/// Words as raw bytes.
pub fn raw(words: &[u32]) -> Vec<u8> {
    words.iter().flat_map(|word| word.to_le_bytes()).collect()
}

/// Words as hexadecimal lines.
pub fn lines(words: &[u32]) -> String {
    words.iter().map(|word| format!("{word:08X}\n")).collect()
}

#[cfg(test)]
mod tests {
    use super::{line_of, lines, raw, read, NoWords};

    const WORDS: [u32; 3] = [0x1000_0102, 0xA000_0001, 0x9FFF_FFFF];

    #[test]
    fn words_come_back_from_both_forms() {
        assert_eq!(read(&raw(&WORDS)), Ok(WORDS.to_vec()));
        assert_eq!(read(lines(&WORDS).as_bytes()), Ok(WORDS.to_vec()));
        assert_eq!(read(format!("\u{FEFF}{}", lines(&WORDS)).as_bytes()), Ok(WORDS.to_vec()));
        assert_eq!(lines(&WORDS), "10000102\nA0000001\n9FFFFFFF\n");
    }

    #[test]
    fn lines_may_have_small_letters_and_white_space_around_them() {
        assert_eq!(read(b"\n  a0000001\t\r\n\r\nE0000000"), Ok(vec![0xA000_0001, 0xE000_0000]));
    }

    #[test]
    fn a_word_of_lines_has_a_line_and_one_of_raw_bytes_has_none() {
        let text = b"\n  A0000001\t\r\n\r\nE0000000";
        assert_eq!([0, 1, 2].map(|index| line_of(text, index)), [Some(2), Some(4), None]);
        assert_eq!(line_of(&raw(&WORDS), 0), None);
    }

    #[test]
    fn no_bytes_are_no_words() {
        assert_eq!(read(b""), Ok(vec![]));
    }

    #[test]
    fn bytes_that_end_inside_a_word_are_none() {
        assert_eq!(read(&raw(&WORDS)[..11]), Err(NoWords::CutAt(2)));
    }

    #[test]
    fn a_line_that_is_no_word_is_named() {
        let no_word = |line: &str| Err(NoWords::Line(2, line.to_string()));
        assert_eq!(read(b"A0000001\nA000001\n"), no_word("A000001"));
        assert_eq!(read(b"A0000001\n+0000001\n"), no_word("+0000001"));
        assert_eq!(read(b"A0000001\nA000000G\n"), no_word("A000000G"));
        assert_eq!(read(b"A0000001\nA0000001 B0000001\n"), no_word("A0000001 B0000001"));
        assert_eq!(read(b"A0000001\n\xE9\n"), no_word("\u{FFFD}"));
    }

    #[test]
    fn other_text_and_files_of_other_programs_are_no_words() {
        assert_eq!(read(b"day M\n"), Err(NoWords::Text));
        assert_eq!(read(b"%PDF-1.7\n"), Err(NoWords::Foreign("a PDF")));
    }
}
