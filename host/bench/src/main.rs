//! Times of the library beside plain Rust that does the same, both taken in the same run.

mod build;
mod check;
mod day;
mod rounds;
mod settled;
mod solomon;
mod table;
mod tips;
mod trials;

use settled::Settled;
use table::Table;

fn main() {
    let mut words = Table::of("word");
    day::rows(&mut words);
    check::rows(&mut words);
    build::rows(&mut words);
    print!("{words}\n{}{}\n", check::NOTE, build::NOTE);
    let mut bytes = Table::of("byte");
    solomon::rows(&mut bytes);
    print!("{bytes}\n{}\n", solomon::NOTE);
    let mut tips = Table::of("tip");
    tips::rows(&mut tips);
    print!("{tips}\n{}\n", tips::NOTE);
    let mut trials = Table::of("trial");
    trials::rows(&mut trials);
    print!("{trials}\n{}\n", trials::NOTE);
    print!("{}\n{}", Settled::of_each_day(), settled::NOTE);
}
