//! Writes the plan of case (a) of document 01 to standard output, as bytes.

use std::io::{self, Write};

use reference::{bytes, worked_plans};

fn main() -> io::Result<()> {
    io::stdout().write_all(&bytes::write(&worked_plans::PLAN_M))
}
