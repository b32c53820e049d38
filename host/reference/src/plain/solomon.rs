//! Bringing in a Solomon instance as ordinary Rust: a cursor over the bytes that leaves at the first
//! fault, the customers kept in an array, then the words.

use super::refuse;
use crate::Refusal;

const MOST_STOPS: usize = 240;

/// No limit is so large, so a number is not followed beyond.
const PAST_ALL: u32 = 1_000_000;

#[derive(Clone, Copy, Default)]
struct Customer {
    x: u32,
    y: u32,
    demand: u32,
    ready: u32,
    due: u32,
    service: u32,
}

/// Writes the day of the text and gives the count of its words; or refusal 17, 18 or 14.
pub fn import_solomon(text: &[u8], words: &mut [u32]) -> Result<usize, Refusal> {
    let mut cursor = Cursor { text, at: 0 };
    cursor.any_line()?;
    cursor.word_line(b"VEHICLE")?;
    cursor.any_line()?;
    cursor.seek_line()?;
    cursor.number()?;
    let capacity = cursor.used(1, 100_000)?;
    cursor.end_of_line()?;
    cursor.word_line(b"CUSTOMER")?;
    cursor.any_line()?;
    cursor.seek_line()?;
    let mut customers = [Customer::default(); 1 + MOST_STOPS];
    customers[0] = cursor.customer(0)?;
    let mut count = 1;
    while cursor.seek_line().is_ok() {
        let customer = cursor.customer(count)?;
        customers[count] = customer;
        count += 1;
    }
    let stops = count - 1;
    let needed = 13 + 7 * stops + stops * stops;
    if words.len() < needed {
        return refuse(14, needed);
    }
    write(capacity, &customers[..count], &mut words[..needed]);
    Ok(needed)
}

struct Cursor<'a> {
    text: &'a [u8],
    at: usize,
}

fn is_blank(byte: u8) -> bool {
    matches!(byte, b' ' | b'\t' | b'\r')
}

impl Cursor<'_> {
    fn byte(&self) -> Option<u8> {
        self.text.get(self.at).copied()
    }

    fn skip_blanks(&mut self) {
        while self.byte().is_some_and(is_blank) {
            self.at += 1;
        }
    }

    /// Goes to the first field of the next line that is not blank.
    fn seek_line(&mut self) -> Result<(), Refusal> {
        while self.byte().is_some_and(|byte| is_blank(byte) || byte == b'\n') {
            self.at += 1;
        }
        match self.byte() {
            None => refuse(17, self.at),
            Some(_) => Ok(()),
        }
    }

    fn any_line(&mut self) -> Result<(), Refusal> {
        self.seek_line()?;
        while self.byte().is_some_and(|byte| byte != b'\n') {
            self.at += 1;
        }
        Ok(())
    }

    fn is_end_of_field(&self) -> bool {
        self.byte().is_none_or(|byte| is_blank(byte) || byte == b'\n')
    }

    fn word_line(&mut self, word: &[u8]) -> Result<(), Refusal> {
        self.seek_line()?;
        let start = self.at;
        if !self.text[start..].starts_with(word) {
            return refuse(17, start);
        }
        self.at += word.len();
        if !self.is_end_of_field() {
            return refuse(17, start);
        }
        self.end_of_line()
    }

    fn end_of_line(&mut self) -> Result<(), Refusal> {
        self.skip_blanks();
        match self.byte() {
            None | Some(b'\n') => Ok(()),
            Some(_) => refuse(17, self.at),
        }
    }

    /// The next field, a number, and where it starts.
    fn number(&mut self) -> Result<(u32, usize), Refusal> {
        self.skip_blanks();
        let start = self.at;
        let mut value = 0;
        while let Some(digit @ b'0'..=b'9') = self.byte() {
            value = (10 * value + u32::from(digit - b'0')).min(PAST_ALL);
            self.at += 1;
        }
        if self.at == start || !self.is_end_of_field() {
            return refuse(17, start);
        }
        Ok((value, start))
    }

    fn used(&mut self, low: u32, high: u32) -> Result<u32, Refusal> {
        let (value, start) = self.number()?;
        if value < low || value > high {
            return refuse(18, start);
        }
        Ok(value)
    }

    fn customer(&mut self, next: usize) -> Result<Customer, Refusal> {
        let (number, start) = self.number()?;
        if number as usize != next {
            return refuse(17, start);
        }
        if next > MOST_STOPS {
            return refuse(18, start);
        }
        let x = self.used(0, 1_000)?;
        let y = self.used(0, 1_000)?;
        let demand = self.used_by_a_stop(next, 100_000)?;
        let ready = self.used(0, 1_440)?;
        let due = self.used(ready, 1_440)?;
        let service = self.used_by_a_stop(next, 240)?;
        self.end_of_line()?;
        Ok(Customer { x, y, demand, ready, due, service })
    }

    /// The depot's is passed over.
    fn used_by_a_stop(&mut self, customer: usize, high: u32) -> Result<u32, Refusal> {
        match customer {
            0 => self.number().map(|_| 0),
            _ => self.used(0, high),
        }
    }
}

fn window(customer: &Customer) -> u32 {
    5 << 28 | customer.ready << 12 | customer.due
}

/// The words of the day, as many as the buffer has.
fn write(capacity: u32, customers: &[Customer], words: &mut [u32]) {
    let depot = customers[0];
    let stops = &customers[1..];
    let places = 2 + stops.len();
    let (head, behind) = words.split_at_mut(9);
    head.copy_from_slice(&[
        1 << 28 | 1 << 8 | stops.len() as u32,
        2 << 28 | capacity,
        3 << 28 | 1_000_000,
        4 << 28 | 240,
        window(&depot),
        6 << 28 | 1_440 << 12 | 1_440,
        7 << 28,
        window(&depot),
        7 << 28,
    ]);
    let (stop_words, legs) = behind.split_at_mut(3 * stops.len());
    for (words, stop) in stop_words.chunks_exact_mut(3).zip(stops) {
        words.copy_from_slice(&[window(stop), 7 << 28 | stop.service, 8 << 28 | stop.demand]);
    }
    for (from, row) in legs.chunks_exact_mut(places).enumerate() {
        let from = &customers[from.saturating_sub(1)];
        row[0] = leg(from, &depot);
        for (word, to) in row[1..].iter_mut().zip(customers) {
            *word = leg(from, to);
        }
    }
}

/// The sums are far below 2⁵³, so no root is rounded up to a whole number.
fn leg(from: &Customer, to: &Customer) -> u32 {
    let (dx, dy) = (from.x.abs_diff(to.x), from.y.abs_diff(to.y));
    let sum = dx * dx + dy * dy;
    let minutes = f64::from(sum).sqrt() as u32;
    let distance = f64::from(100 * sum).sqrt() as u32;
    9 << 28 | minutes << 16 | distance
}
