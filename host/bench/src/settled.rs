//! What the days of few long rounds and of many short ones come to when their plans are settled: how
//! short a plan is, after how many trials, and how long the library takes.

use std::fmt;
use std::time::Instant;

use kazhuvendi::{Planned, Refusal};
use reference::sets::Sets;

use crate::rounds::{each_day, name, plan_with, room, Day};

/// What the rows of this file need to be read rightly.
pub const NOTE: &str = "\
greedy            the plan before the first trial
K, growing        the plan when it is settled, with no trial left that would be kept
";

/// The best of so many calls counts.
const CALLS: usize = 3;

pub struct Settled {
    rows: Vec<Row>,
}

struct Row {
    name: String,
    planned: Planned,
    milliseconds: f64,
}

impl Settled {
    pub fn of_each_day() -> Self {
        Settled { rows: each_day().iter().flat_map(rows).collect() }
    }
}

fn rows(day: &Day) -> Vec<Row> {
    let (mut plan, mut work) = (room(&day.words), room(&day.words));
    let greedy = format!("{}, greedy", day.name);
    let mut rows = vec![Row::of(greedy, || kazhuvendi::build(&day.words, &mut plan))];
    for sets in [Sets::Nearest(10), Sets::Nearest(50), Sets::Growing] {
        let name = format!("{}, {}", day.name, name(sets));
        rows.push(Row::of(name, || plan_with(sets, &day.words, u64::MAX, &mut plan, &mut work)));
    }
    rows
}

impl Row {
    fn of(name: String, mut plan: impl FnMut() -> Result<Planned, Refusal>) -> Self {
        let mut call = || {
            let start = Instant::now();
            let planned = plan().expect("the day is planned");
            (planned, start.elapsed().as_secs_f64() * 1_000.0)
        };
        let (planned, first) = call();
        let milliseconds = (1..CALLS).map(|_| call().1).fold(first, f64::min);
        Row { name, planned, milliseconds }
    }
}

impl fmt::Display for Settled {
    fn fmt(&self, f: &mut fmt::Formatter<'_>) -> fmt::Result {
        writeln!(f, "{:44} {:>11} {:>11} {:>12}", "", "distance", "trials", "milliseconds")?;
        self.rows.iter().try_for_each(|row| {
            let Planned { distance, trials, .. } = row.planned;
            writeln!(f, "{:44} {distance:11} {trials:11} {:12.1}", row.name, row.milliseconds)
        })
    }
}
