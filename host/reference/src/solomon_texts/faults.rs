//! Lines of fields with something wrong in them. Some of what is put in is no offence where it comes
//! to stand: what the text then is, the two have to agree on.

use super::{Lines, DEPOT, FLEET};
use crate::random::Random;

/// The limits of all fields, numbers just past them, and numbers that a type of 32 or of 64 bits
/// takes for a small one.
const NUMBERS: [&str; 22] = [
    "0",
    "1",
    "2",
    "239",
    "240",
    "241",
    "242",
    "1000",
    "1001",
    "1439",
    "1440",
    "1441",
    "100000",
    "100001",
    "4294967295",
    "4294967296",
    "4294967297",
    "18446744073709551615",
    "18446744073709551616",
    "18446744073709551617",
    "340282366920938463463374607431768211457",
    "00000000000000000000000000000000000000001",
];

/// What is no number.
const NO_NUMBERS: [&str; 12] =
    ["-1", "+1", "1.0", "1e2", "0x1", "a", "1a", "1,000", "\u{663}", "1\u{b}", "\u{c}", "\0"];

/// What is neither VEHICLE nor CUSTOMER.
const NO_WORDS: [&str; 9] = [
    "vehicle",
    "customer",
    "VEHICL",
    "VEHICLES",
    "CUSTOMER1",
    "CUSTOMEr",
    "\u{feff}VEHICLE",
    "VEHICLE\u{b}",
    "7",
];

/// Puts one thing wrong into the lines, or two.
pub fn put_in(random: &mut Random, lines: &mut Lines) {
    for _ in 0..random.one_of(&[1, 1, 1, 2]) {
        put_in_one(random, lines);
    }
}

fn put_in_one(random: &mut Random, lines: &mut Lines) {
    if lines.len() <= DEPOT {
        return;
    }
    match random.below(16) {
        0..=4 => replace(random, lines, &NUMBERS),
        5 => replace(random, lines, &NO_NUMBERS),
        6 => lines[random.one_of(&[1, 4])] = vec![random.one_of(&NO_WORDS).into()],
        7 | 8 => due_about_ready(random, lines),
        9 | 10 => wrapped(random, lines),
        11 => remove_or_add_a_field(random, lines),
        12 => swap_fields(random, lines),
        13 => remove_or_double_a_line(random, lines),
        14 => {
            let (here, there) = (random.below(lines.len()), random.below(lines.len()));
            lines.swap(here, there);
        }
        _ => last_stop(random, lines),
    }
}

/// The index of a line of numbers.
fn numbers_line(random: &mut Random, lines: &Lines) -> usize {
    match random.below(5) {
        0 => FLEET,
        1 => DEPOT,
        _ => DEPOT + random.below(lines.len() - DEPOT),
    }
}

fn somewhere<'l>(random: &mut Random, lines: &'l mut Lines) -> &'l mut Vec<u8> {
    let line = numbers_line(random, lines);
    let field = random.below(lines[line].len());
    &mut lines[line][field]
}

fn replace(random: &mut Random, lines: &mut Lines, by: &[&str]) {
    *somewhere(random, lines) = random.one_of(by).into();
}

/// A due date just before the ready time, at it or behind it.
fn due_about_ready(random: &mut Random, lines: &mut Lines) {
    let customer = DEPOT + random.below(lines.len() - DEPOT);
    if let [_, _, _, _, ready, due, ..] = lines[customer].as_mut_slice() {
        let minute = random.one_of(&[1, 2, 9, 10, 99, 100, 999, 1_000, 1_440, 1_441]);
        *ready = minute.to_string().into();
        *due = (minute + random.below(3) - 1).to_string().into();
    }
}

/// A number that has the same low bits as the right one.
fn wrapped(random: &mut Random, lines: &mut Lines) {
    let above = 1_u128 << random.one_of(&[8, 16, 32, 64]);
    let field = somewhere(random, lines);
    let number = std::str::from_utf8(field).ok().and_then(|digits| digits.parse::<u128>().ok());
    *field = number.unwrap_or(0).saturating_add(above).to_string().into();
}

fn remove_or_add_a_field(random: &mut Random, lines: &mut Lines) {
    let numbers = numbers_line(random, lines);
    let line = random.one_of(&[1, 4, numbers, numbers]);
    let fields = &mut lines[line];
    if fields.len() > 1 && random.once_in(2) {
        fields.remove(random.below(fields.len()));
    } else {
        fields.insert(random.below(fields.len() + 1), b"1".to_vec());
    }
}

fn swap_fields(random: &mut Random, lines: &mut Lines) {
    let kept = somewhere(random, lines).clone();
    let other = std::mem::replace(somewhere(random, lines), kept);
    *somewhere(random, lines) = other;
}

fn remove_or_double_a_line(random: &mut Random, lines: &mut Lines) {
    let line = random.below(lines.len());
    if random.once_in(2) {
        lines.remove(line);
    } else {
        lines.insert(line, lines[line].clone());
    }
}

/// The last stop's line, which may be one past 240, with another number, or cut.
fn last_stop(random: &mut Random, lines: &mut Lines) {
    let last = lines.len() - 1;
    if random.once_in(2) {
        lines[last][0] = random.one_of(&NUMBERS).into();
    } else {
        let fields = 1 + random.below(lines[last].len());
        lines[last].truncate(fields);
    }
}
