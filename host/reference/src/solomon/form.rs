//! The form of the text as a table of what each field has to be, and every offence against it.

use std::ops::RangeInclusive;

use super::lines::{Field, Line};

/// The rank of each line among those that are not blank.
const NAME: usize = 0;
const VEHICLE: usize = 1;
const VEHICLE_COLUMNS: usize = 2;
pub const FLEET: usize = 3;
const CUSTOMER: usize = 4;
const CUSTOMER_COLUMNS: usize = 5;
/// Customer line 0; the stops are behind it.
pub const DEPOT: usize = 6;

/// "Text not of this form."
const FORM: u64 = 17;
/// "A used number outside a day file's limits or a coordinate over 1,000, a stop past 240, or a due
/// date before its ready time."
const LIMIT: u64 = 18;

const MOST_STOPS: u64 = 240;
const LAST_MINUTE: u64 = 1_440;

/// Something wrong in the text. The order is that in which offences count.
#[derive(PartialEq, Eq, PartialOrd, Ord)]
pub struct Offence {
    pub byte: usize,
    pub number: u64,
}

/// What a field has to be.
enum Wanted {
    /// These very bytes.
    Word(&'static str),
    /// A number that "may be of any size" and is not used.
    Unused,
    /// A number that is used, and its limits.
    Within(RangeInclusive<u64>),
    /// The number of this customer line.
    Customer(u64),
    /// A due date. The ready time is the field before it.
    Due,
}

/// Every offence of a text of so many bytes, in no order.
pub fn offences(lines: &[Line], length: usize) -> Vec<Offence> {
    let mut offences = Vec::new();
    for (rank, line) in lines.iter().enumerate() {
        if let Some(wanted) = wanted(rank) {
            offences_of_line(line, &wanted, &mut offences);
        }
    }
    if lines.len() <= DEPOT {
        offences.push(Offence { byte: length, number: FORM });
    }
    offences
}

/// What the fields of a line have to be; nothing for "any lines that aren't blank".
fn wanted(rank: usize) -> Option<Vec<Wanted>> {
    match rank {
        NAME | VEHICLE_COLUMNS | CUSTOMER_COLUMNS => None,
        VEHICLE => Some(vec![Wanted::Word("VEHICLE")]),
        FLEET => Some(vec![Wanted::Unused, Wanted::Within(1..=100_000)]),
        CUSTOMER => Some(vec![Wanted::Word("CUSTOMER")]),
        _ => Some(customer(rank - DEPOT)),
    }
}

/// "Number, abscissa, ordinate, demand, ready time, due date, service time, line 0 being the depot",
/// whose demand and service are not used.
fn customer(number: usize) -> Vec<Wanted> {
    let (demand, service) = match number {
        0 => (Wanted::Unused, Wanted::Unused),
        _ => (Wanted::Within(0..=100_000), Wanted::Within(0..=240)),
    };
    vec![
        Wanted::Customer(number as u64),
        Wanted::Within(0..=1_000),
        Wanted::Within(0..=1_000),
        demand,
        Wanted::Within(0..=LAST_MINUTE),
        Wanted::Due,
        service,
    ]
}

fn offences_of_line(line: &Line, wanted: &[Wanted], offences: &mut Vec<Offence>) {
    for (index, wanted) in wanted.iter().enumerate() {
        match line.fields.get(index) {
            None => offences.push(Offence { byte: line.end, number: FORM }),
            Some(field) => {
                let before = index.checked_sub(1).and_then(|before| line.fields[before].number());
                let numbers = against(wanted, field, before);
                let byte = field.first_byte;
                offences.extend(numbers.into_iter().map(|number| Offence { byte, number }));
            }
        }
    }
    for field in line.fields.iter().skip(wanted.len()) {
        offences.push(Offence { byte: field.first_byte, number: FORM });
    }
}

/// The numbers of what is wrong with a field, behind a field of this number.
fn against(wanted: &Wanted, field: &Field, before: Option<u64>) -> Vec<u64> {
    let offence = |number, met| if met { vec![number] } else { vec![] };
    if let Wanted::Word(word) = wanted {
        return offence(FORM, field.bytes != word.as_bytes());
    }
    let Some(number) = field.number() else { return vec![FORM] };
    match wanted {
        Wanted::Word(_) | Wanted::Unused => vec![],
        Wanted::Within(limits) => offence(LIMIT, !limits.contains(&number)),
        Wanted::Due => offence(LIMIT, number > LAST_MINUTE || Some(number) < before),
        Wanted::Customer(next) => {
            let past = offence(LIMIT, *next > MOST_STOPS);
            [offence(FORM, number != *next), past].concat()
        }
    }
}
