//! The layout of an instance: its lines in order, and the fields of each.

/// A line of an instance that isn't blank.
#[derive(Clone, Copy, Debug, PartialEq, Eq)]
pub enum Line {
    /// The name line.
    Name,
    /// The word VEHICLE.
    Vehicle,
    /// The names of the two columns below.
    VehicleColumns,
    /// The number of the vehicles and their capacity.
    Capacity,
    /// The word CUSTOMER.
    Customer,
    /// The names of the seven columns below.
    CustomerColumns,
    /// A row of seven numbers: 0 is the depot, and then come the customers.
    Row(usize),
}
use Line::{Capacity, Customer, CustomerColumns, Name, Row, Vehicle, VehicleColumns};

/// So many lines stand before the depot's.
pub const HEAD: usize = 6;

/// The fields of the line that has the capacity.
pub const CAPACITY: [&str; 2] = ["vehicle number", "capacity"];

/// The fields of a row.
pub const ROW: [&str; 7] = [
    "customer number",
    "x coordinate",
    "y coordinate",
    "demand",
    "ready time",
    "due date",
    "service time",
];

/// The ready time among the fields of a row.
pub const READY: usize = 4;

/// The due date among them.
pub const DUE: usize = 5;

impl Line {
    /// The line behind so many others.
    pub fn behind(others: usize) -> Line {
        const LINES: [Line; HEAD] =
            [Name, Vehicle, VehicleColumns, Capacity, Customer, CustomerColumns];
        LINES.get(others).copied().unwrap_or_else(|| Row(others - HEAD))
    }

    /// How many fields it has. The name line and the lines of column names may have any number.
    pub fn fields(self) -> Option<usize> {
        match self {
            Name | VehicleColumns | CustomerColumns => None,
            Vehicle | Customer => Some(1),
            Capacity => Some(CAPACITY.len()),
            Row(_) => Some(ROW.len()),
        }
    }
}

/// The lines that aren't blank, with their numbers from 1. A line feed alone ends a line.
pub fn lines(text: &[u8]) -> impl Iterator<Item = (usize, &[u8])> + Clone {
    let lines = (1..).zip(text.split(|byte| *byte == b'\n'));
    lines.filter(|(_, line)| fields(line).next().is_some())
}

/// The fields of a line. Space, tab and carriage return stand between them.
pub fn fields(line: &[u8]) -> impl Iterator<Item = &[u8]> {
    let fields = line.split(|byte| matches!(byte, b' ' | b'\t' | b'\r'));
    fields.filter(|field| !field.is_empty())
}
