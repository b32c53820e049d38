//! Rows of times. The two sides of a row take turns, so that both meet the same machine, and the
//! best of many turns counts.

use std::fmt;
use std::fmt::Debug;
use std::hint::black_box;
use std::time::Instant;

const TURNS: usize = 2_000;

/// There are fewer turns where so many would take longer than a row should, but never fewer than
/// these.
const FEWEST_TURNS: usize = 10;
const ROW_NANOSECONDS: f64 = 2_000_000_000.0;

/// As long as a turn takes at least, so that reading the clock does not count.
const TURN_NANOSECONDS: f64 = 50_000.0;

pub struct Table {
    /// What a row counts: words, bytes, tips or trials, one of them.
    unit: &'static str,
    rows: Vec<Row>,
}

struct Row {
    name: String,
    count: usize,
    library: f64,
    plain: f64,
}

impl Table {
    /// A table of no rows yet.
    pub fn of(unit: &'static str) -> Self {
        Table { unit, rows: Vec::new() }
    }

    /// Adds a row on an input of so many units. Both sides have to give the same answer.
    pub fn row<A: Debug + PartialEq>(
        &mut self,
        name: &str,
        count: usize,
        mut library: impl FnMut() -> A,
        mut plain: impl FnMut() -> A,
    ) {
        assert_eq!(library(), plain(), "{name}");
        let [library, plain] = best([&mut timed(library), &mut timed(plain)]);
        self.rows.push(Row { name: name.to_owned(), count, library, plain });
    }

    /// Adds a row of two calls that begin with the same step, whose time is taken off both.
    pub fn row_less<A: Debug + PartialEq, S>(
        &mut self,
        name: &str,
        count: usize,
        step: impl FnMut() -> S,
        mut library: impl FnMut() -> A,
        mut plain: impl FnMut() -> A,
    ) {
        assert_eq!(library(), plain(), "{name}");
        let [step, library, plain] =
            best([&mut timed(step), &mut timed(library), &mut timed(plain)]);
        let (name, library, plain) = (name.to_owned(), library - step, plain - step);
        self.rows.push(Row { name, count, library, plain });
    }
}

/// The best times of one call, in nanoseconds. The calls take turns.
fn best<const N: usize>(mut timers: [&mut dyn FnMut(usize) -> f64; N]) -> [f64; N] {
    let once = timers.each_mut().map(|timer| timer(10));
    let calls = once.map(|once| (TURN_NANOSECONDS / once) as usize + 1);
    let turn: f64 = once.iter().zip(calls).map(|(once, calls)| once * calls as f64).sum();
    let turns = ((ROW_NANOSECONDS / turn) as usize).clamp(FEWEST_TURNS, TURNS);
    let mut best = [f64::INFINITY; N];
    for _ in 0..turns {
        for ((best, calls), timer) in best.iter_mut().zip(calls).zip(&mut timers) {
            *best = best.min(timer(calls));
        }
    }
    best
}

/// The time of one call in nanoseconds, on the average of so many.
fn timed<A>(mut call: impl FnMut() -> A) -> impl FnMut(usize) -> f64 {
    move |calls| {
        let start = Instant::now();
        for _ in 0..calls {
            black_box(call());
        }
        start.elapsed().as_nanos() as f64 / calls as f64
    }
}

impl fmt::Display for Table {
    fn fmt(&self, f: &mut fmt::Formatter<'_>) -> fmt::Result {
        writeln!(
            f,
            "{:44} {:>7} {:>20} {:>20} {:>8}",
            "", "", "library, ns", "plain, ns", "plain /"
        )?;
        let (units, a_unit) = (format!("{}s", self.unit), format!("a {}", self.unit));
        write!(f, "{:44} {:>7} {:>11} {:>8}", "", units, "a call", a_unit)?;
        writeln!(f, " {:>11} {:>8} {:>8}", "a call", a_unit, "library")?;
        self.rows.iter().try_for_each(|row| writeln!(f, "{row}"))
    }
}

impl fmt::Display for Row {
    fn fmt(&self, f: &mut fmt::Formatter<'_>) -> fmt::Result {
        let count = self.count as f64;
        write!(f, "{:44} {:7}", self.name, self.count)?;
        write!(f, " {:11.1} {:8.3}", self.library, self.library / count)?;
        write!(f, " {:11.1} {:8.3}", self.plain, self.plain / count)?;
        write!(f, " {:8.2}", self.plain / self.library)
    }
}
