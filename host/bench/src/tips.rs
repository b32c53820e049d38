//! The nearest open tip of 15. On the days here no stop can be taken, so that the greedy build asks for
//! each stop's way home, and so for one nearest tip, and then leaves the stop out.

use reference::day::{Day, Window};
use reference::random::Random;
use reference::workdays::usual_day;

use crate::build;
use crate::table::Table;

/// What the rows of this file need to be read rightly.
pub const NOTE: &str = "\
nearest tip       the build for 240 stops none of which can be taken, one nearest tip for each; the
                  day is not counted. Where all are open, the depot behind the tip is reached too late
";

const STOPS: usize = 240;
const TIPS: usize = 15;

pub fn rows(table: &mut Table) {
    row(table, "nearest tip, all 15 open", &all_open());
    row(table, "nearest tip, none of 15 open", &none_open());
}

/// Every tip is open all day, and the depot shuts as soon as it has opened.
fn all_open() -> Day {
    let mut day = at_any_time();
    day.depot.closing = day.depot.opening;
    day
}

/// Every tip has shut before the first vehicle leaves.
fn none_open() -> Day {
    let mut day = at_any_time();
    for tip in &mut day.tips {
        tip.window = Window { opening: 0, closing: 0 };
    }
    day
}

/// A usual day with every stop and every tip open at any minute.
fn at_any_time() -> Day {
    let mut day = usual_day(&mut Random::new(1), STOPS, TIPS);
    let always = Window { opening: 0, closing: 1_440 };
    day.stops.iter_mut().for_each(|stop| stop.window = always);
    day.tips.iter_mut().for_each(|tip| tip.window = always);
    day
}

fn row(table: &mut Table, name: &str, day: &Day) {
    build::alone(table, name, STOPS * TIPS, &day.words(), STOPS);
}
