//! Writes day M of document 01 to standard output, as the bytes of a day file.

use std::io::{self, Write};

use reference::{bytes, samples};

fn main() -> io::Result<()> {
    io::stdout().write_all(&bytes::write(&samples::day_m().words()))
}
