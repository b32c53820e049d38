//! Writes the sample depot's day into a folder: `depot.txt` in text, `depot.day` as a day file.

use std::path::Path;
use std::{env, fs, io};

use kz::depot;

fn main() -> io::Result<()> {
    let folder = env::args().nth(1).unwrap_or_else(|| "../examples".to_string());
    let folder = Path::new(&folder);
    let words = depot::sample().words;
    let bytes: Vec<u8> = words.iter().flat_map(|word| word.to_le_bytes()).collect();
    fs::write(folder.join("depot.txt"), depot::sample_text())?;
    fs::write(folder.join("depot.day"), bytes)
}
