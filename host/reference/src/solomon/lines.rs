//! The text cut into lines, and lines into fields, with the bytes at which they stand.

/// "Blanks (space, tab, carriage return) separate fields."
const BLANKS: &[u8] = b" \t\r";

/// What stands between blanks.
pub struct Field<'t> {
    /// Where in the text its first byte stands.
    pub first_byte: usize,
    /// At least one byte.
    pub bytes: &'t [u8],
}

/// A line that is not blank.
pub struct Line<'t> {
    /// At least one field.
    pub fields: Vec<Field<'t>>,
    /// Where a missing field is missed: "the line feed or text end".
    pub end: usize,
}

/// The lines of a text; "blank lines are skipped".
pub fn lines(text: &[u8]) -> Vec<Line<'_>> {
    let mut lines = Vec::new();
    let mut start = 0;
    for bytes in text.split(|&byte| byte == b'\n') {
        let end = start + bytes.len();
        lines.push(Line { fields: fields(bytes, start), end });
        start = end + 1;
    }
    lines.retain(|line| !line.fields.is_empty());
    lines
}

/// The fields of a line that begins at this byte of the text.
fn fields(line: &[u8], mut start: usize) -> Vec<Field<'_>> {
    let mut fields = Vec::new();
    for bytes in line.split(|byte| BLANKS.contains(byte)) {
        fields.push(Field { first_byte: start, bytes });
        start += bytes.len() + 1;
    }
    fields.retain(|field| !field.bytes.is_empty());
    fields
}

impl Field<'_> {
    /// "A number is one or more decimal digits", of which there may be any number. One that is too
    /// large for 64 bits is past every limit, and so is the number that then stands for it.
    pub fn number(&self) -> Option<u64> {
        if !self.bytes.iter().all(u8::is_ascii_digit) {
            return None;
        }
        let digits = std::str::from_utf8(self.bytes).expect("digits are text");
        Some(digits.parse().unwrap_or(u64::MAX))
    }
}
