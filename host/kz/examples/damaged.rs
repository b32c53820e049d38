//! Gives damaged days and plans to every command, for some seconds.

use std::error::Error;

use kz::interrupt;
use reference::run::Run;

#[path = "../tests/damage/mod.rs"]
mod damage;

use damage::{Bench, Kind};

fn main() -> Result<(), Box<dyn Error>> {
    let run = Run::told(std::env::args().skip(1))?;
    let folder = std::env::temp_dir().join(format!("kz-damaged-{}", std::process::id()));
    let mut bench = Bench::new(&folder, run.seed);
    // Planning holds interrupts, so that they have to be asked for here.
    while run.goes_on() && !interrupt::noted() {
        for kind in [Kind::Text, Kind::DayFile, Kind::Plan] {
            bench.turn(kind);
        }
    }
    println!("kz: {}", bench.tally);
    Ok(std::fs::remove_dir_all(&folder)?)
}
