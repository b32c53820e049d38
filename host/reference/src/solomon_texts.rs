//! Texts to bring in: instances of the Solomon form in several layouts, and damaged ones.
//!
//! A text is made as lines of fields first. [`faults`] puts something wrong into these; [`layout`] lays
//! them out; [`scratches`] damages the bytes.

mod faults;
mod layout;
mod scratches;

use crate::random::Random;
use crate::samples::{value, window};

pub use layout::Layout;

/// The fields of each line. Blank lines come with the layout.
pub type Lines = Vec<Vec<Vec<u8>>>;

/// The index of the line of vehicle number and capacity.
pub const FLEET: usize = 3;
/// The index of the depot's line. That of stop k is k lines behind it.
pub const DEPOT: usize = 6;

/// A text, about four in ten of them without an offence.
pub fn random_text(random: &mut Random) -> Vec<u8> {
    let stops = random_stops(random);
    let mut lines = random_lines(random, stops);
    let damage = random.below(10);
    if (3..8).contains(&damage) {
        faults::put_in(random, &mut lines);
    }
    let mut text = Layout::random(random).text(random, &lines);
    if damage >= 7 {
        scratches::put_in(random, &mut text);
    }
    text
}

/// How many stops a text has. Most are small, so that a test has time for many; some have about as
/// many as a day may have, or more.
fn random_stops(random: &mut Random) -> usize {
    match random.below(250) {
        0 => 238 + random.below(6),
        1 => random.below(241),
        2..=9 => random.below(60),
        _ => random.below(8),
    }
}

/// The lines of an instance of so many stops. It has no offence where there are at most 240.
pub fn random_lines(random: &mut Random, stops: usize) -> Lines {
    let mut lines = vec![
        words(random.one_of(&["R101", "RC 2 08.", "VEHICLE", "0 0 0 0 0 0 0", "\u{1}\u{b}\u{e9}"])),
        words("VEHICLE"),
        columns(random, "NUMBER CAPACITY"),
        vec![unused(random), number(random, 1, 100_000)],
        words("CUSTOMER"),
        columns(random, "CUST NO. XCOORD. YCOORD. DEMAND READY TIME DUE DATE SERVICE TIME"),
    ];
    lines.extend((0..=stops).map(|customer| random_customer(random, customer)));
    lines
}

fn random_customer(random: &mut Random, customer: usize) -> Vec<Vec<u8>> {
    let window = window(random);
    let (x, y) = (number(random, 0, 1_000), number(random, 0, 1_000));
    let (demand, service) = match customer {
        0 => (unused(random), unused(random)),
        _ => (number(random, 0, 100_000), number(random, 0, 240)),
    };
    let mut digits = |value: u32| zeros_before(random, value.to_string());
    let customer = digits(customer as u32);
    vec![customer, x, y, demand, digits(window.opening), digits(window.closing), service]
}

/// The fields of a line that is written like this.
fn words(line: &str) -> Vec<Vec<u8>> {
    line.split(' ').map(|field| field.as_bytes().to_vec()).collect()
}

/// A line of column names may hold anything.
fn columns(random: &mut Random, usual: &str) -> Vec<Vec<u8>> {
    match random.below(8) {
        0 => words("CUSTOMER"),
        1 => words("0 1 2 3 4 5 6 7 8"),
        _ => words(usual),
    }
}

fn number(random: &mut Random, low: u32, high: u32) -> Vec<u8> {
    let value = value(random, low..=high);
    zeros_before(random, value.to_string())
}

/// Leading zeros once in ten times, now and then so many that the number has more digits than any type.
fn zeros_before(random: &mut Random, digits: String) -> Vec<u8> {
    let zeros = match random.below(80) {
        0 => 30,
        1..=8 => 1 + random.below(4),
        _ => 0,
    };
    ["0".repeat(zeros), digits].concat().into_bytes()
}

/// A number of any size.
fn unused(random: &mut Random) -> Vec<u8> {
    let digits = match random.below(6) {
        0 => "18446744073709551617".to_string(),
        1 => random.bits().to_string(),
        2 => "9".repeat(1 + random.below(60)),
        _ => random.below(300).to_string(),
    };
    zeros_before(random, digits)
}
