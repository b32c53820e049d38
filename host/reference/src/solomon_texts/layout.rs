//! How the fields of a text are laid out: the blanks about them, the lines' ends, blank lines.

use super::Lines;
use crate::random::Random;

/// The way in which one text is laid out.
#[derive(Clone, Copy, Debug)]
pub struct Layout {
    blanks: Blanks,
    /// A carriage return stands before each line feed.
    carriage_returns: bool,
    /// There are blank lines.
    blank_lines: bool,
    /// The last line ends with a line feed.
    ended: bool,
}

#[derive(Clone, Copy, Debug)]
enum Blanks {
    /// One space between two fields.
    One,
    /// One tab between two fields.
    Tab,
    /// Columns of 11 bytes, numbers to the right, as the public files have them.
    Columns,
    /// Any of the three about each field.
    Any,
}

impl Layout {
    /// Each of the layouts that there are, in turn.
    pub fn each() -> impl Iterator<Item = Layout> {
        (0..32).map(|index: usize| Layout {
            blanks: [Blanks::One, Blanks::Tab, Blanks::Columns, Blanks::Any][index / 8],
            carriage_returns: index & 4 > 0,
            blank_lines: index & 2 > 0,
            ended: index & 1 > 0,
        })
    }

    /// One of them.
    pub fn random(random: &mut Random) -> Layout {
        let index = random.below(32);
        Layout::each().nth(index).expect("there are 32")
    }

    /// The layout of the public files.
    pub fn usual() -> Layout {
        Layout { blanks: Blanks::Columns, carriage_returns: true, blank_lines: false, ended: true }
    }

    /// The text of these lines.
    pub fn text(self, random: &mut Random, lines: &Lines) -> Vec<u8> {
        let mut text = Vec::new();
        for (index, line) in lines.iter().enumerate() {
            self.blank_lines(random, &mut text);
            self.line(random, line, &mut text);
            if self.ended || index + 1 < lines.len() {
                self.end_line(&mut text);
            }
        }
        if self.ended {
            self.blank_lines(random, &mut text);
        }
        text
    }

    fn line(self, random: &mut Random, fields: &[Vec<u8>], text: &mut Vec<u8>) {
        for (index, field) in fields.iter().enumerate() {
            match self.blanks {
                Blanks::One if index > 0 => text.push(b' '),
                Blanks::Tab if index > 0 => text.push(b'\t'),
                Blanks::One | Blanks::Tab => {}
                Blanks::Columns => {
                    let blanks = 11_usize.saturating_sub(field.len()).max(1);
                    text.extend(std::iter::repeat_n(b' ', blanks));
                }
                Blanks::Any => any_blanks(random, usize::from(index > 0), text),
            }
            text.extend(field);
        }
        if matches!(self.blanks, Blanks::Any) {
            any_blanks(random, 0, text);
        }
    }

    fn end_line(self, text: &mut Vec<u8>) {
        text.extend(if self.carriage_returns { "\r\n".as_bytes() } else { b"\n" });
    }

    fn blank_lines(self, random: &mut Random, text: &mut Vec<u8>) {
        while self.blank_lines && random.once_in(3) {
            if matches!(self.blanks, Blanks::Any) {
                any_blanks(random, 0, text);
            }
            self.end_line(text);
        }
    }
}

fn any_blanks(random: &mut Random, least: usize, text: &mut Vec<u8>) {
    let count = least + random.below(3);
    text.extend((0..count).map(|_| random.one_of(b" \t\r")));
}
