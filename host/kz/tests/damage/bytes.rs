//! Ways in which the bytes of a file can be damaged.

use reference::random::Random;

/// What a file consists of.
#[derive(Clone, Copy, Debug, PartialEq, Eq)]
pub enum Piece {
    /// Lines of any length.
    Line,
    /// Words of four bytes.
    Word,
}

/// What stands where a number stood: too large, below 0, no number at all, or a value that may do.
const NUMBERS: &[&str] = &[
    "0",
    "1",
    "7",
    "59",
    "240",
    "-1",
    "-99999999999999999999",
    "1440",
    "1441",
    "65536",
    "100001",
    "4294967295",
    "4294967296",
    "18446744073709551615",
    "18446744073709551616",
    "340282366920938463463374607431768211456",
    "00000000000000000000000000000000000007",
    "1e308",
    "0.0000000001",
    "999999999999.999999",
    "NaN",
    "\u{661}\u{662}",
    "",
];

/// What means something in a text, or what a text can't have.
const MARKS: &[&str] = &[
    "\"",
    "#",
    "-",
    "/",
    ":",
    ".",
    ",",
    ";",
    " ",
    "\t",
    "\r",
    "\n",
    "\r\n",
    "\0",
    "\x1b",
    "\u{feff}",
    "\u{201c}",
    "\u{a0}",
    "\u{e9}",
    "\u{202e}",
    "day ",
    "legs by matrix\n",
    " at 1.0 2.0",
    "VEHICLE\n",
    "\nCUSTOMER\n",
    "PK\x03\x04",
];

/// Damages a file in one way, chosen at random.
pub fn damage(random: &mut Random, bytes: &mut Vec<u8>, piece: Piece) {
    if bytes.is_empty() {
        return put(random, bytes, 0..0);
    }
    let at = random.below(bytes.len());
    match random.below(12) {
        0 => bytes[at] ^= 1 << random.below(8),
        1 => bytes[at] = random.word() as u8,
        2 => put(random, bytes, at..at),
        3 => put(random, bytes, at..at + 1),
        4 => drop(bytes.remove(at)),
        5 => bytes.truncate(at),
        6 => drop(bytes.drain(..at)),
        7 => lose_quotes(random, bytes),
        8 | 9 => replace_number(random, bytes),
        _ => mix_pieces(random, bytes, piece),
    }
}

fn put(random: &mut Random, bytes: &mut Vec<u8>, range: std::ops::Range<usize>) {
    bytes.splice(range, random.one_of(MARKS).bytes());
}

/// One quote is lost, or all of them.
fn lose_quotes(random: &mut Random, bytes: &mut Vec<u8>) {
    let quotes: Vec<usize> = (0..bytes.len()).filter(|at| bytes[*at] == b'"').collect();
    if quotes.is_empty() || random.once_in(4) {
        bytes.retain(|byte| *byte != b'"');
    } else {
        bytes.remove(random.one_of(&quotes));
    }
}

/// Digits that stand together, from anywhere on, become another number.
fn replace_number(random: &mut Random, bytes: &mut Vec<u8>) {
    let from = random.below(bytes.len());
    let Some(start) = (from..bytes.len()).find(|at| bytes[*at].is_ascii_digit()) else { return };
    let digits = bytes[start..].iter().take_while(|byte| byte.is_ascii_digit()).count();
    bytes.splice(start..start + digits, random.one_of(NUMBERS).bytes());
}

/// A piece is dropped or doubled, or two are interchanged.
fn mix_pieces(random: &mut Random, bytes: &mut Vec<u8>, piece: Piece) {
    let mut pieces: Vec<&[u8]> = match piece {
        Piece::Line => bytes.split_inclusive(|byte| *byte == b'\n').collect(),
        Piece::Word => bytes.chunks(4).collect(),
    };
    let (here, there) = (random.below(pieces.len()), random.below(pieces.len()));
    match random.below(4) {
        0 => drop(pieces.remove(here)),
        1 => pieces.insert(there, pieces[here]),
        2 => pieces.swap(here, there),
        // So many lines that a limit is passed.
        _ => drop(pieces.splice(here..here, vec![pieces[here]; random.one_of(&[1, 20, 300])])),
    }
    *bytes = pieces.concat();
}
