//! How far planning is, on standard error.

use std::env;
use std::io::{self, IsTerminal, Write};

use crate::clock::shortened;
use crate::neighbours::Neighbours;
use crate::planning::Outcome;

/// A line of so many characters never goes on to a second one on a terminal of 80 columns, which
/// could not be cleared.
const WIDTH: usize = 79;

/// Takes away what a line of a terminal shows.
const CLEARED: &str = "\r\x1b[K";

/// Where it is shown.
#[derive(Clone, Copy, Debug, PartialEq, Eq)]
pub enum Progress {
    /// On one line of a terminal, which is written over and cleared at the end.
    OneLine,
    /// On a line of its own for each step.
    Lines,
    /// Nowhere.
    Hidden,
}

impl Progress {
    /// On a terminal that can clear a line it is always shown, elsewhere where it is asked for.
    pub fn of(asked_for: bool) -> Progress {
        match (io::stderr().is_terminal() && clears_lines(), asked_for) {
            (true, _) => Progress::OneLine,
            (false, true) => Progress::Lines,
            (false, false) => Progress::Hidden,
        }
    }

    /// Shows a step of this way.
    pub fn show(self, way: Neighbours, outcome: &Outcome) {
        let line = line(way, outcome);
        match self {
            Progress::OneLine => say(&format!("{CLEARED}{}", shortened(&line, WIDTH))),
            Progress::Lines => say(&format!("{line}\n")),
            Progress::Hidden => {}
        }
    }

    /// Leaves the terminal as it was.
    pub fn end(self) {
        if self == Progress::OneLine {
            say(CLEARED);
        }
    }
}

/// The trials of the step, and the shortest plan of all steps.
fn line(way: Neighbours, outcome: &Outcome) -> String {
    let step = outcome.last.iter().find(|last| last.neighbours == way);
    let trials = step.map_or(0, |step| step.planned.trials);
    let distance = outcome.best().planned.distance;
    let (saved, kept, steps) = (outcome.greedy - distance, outcome.kept, outcome.steps);
    format!(
        "{way}: {trials} trials, distance {distance}, {saved} saved, {kept} of {steps} steps shorter"
    )
}

/// Whether the terminal understands more than plain characters.
fn clears_lines() -> bool {
    env::var_os("TERM").is_some_and(|name| !name.is_empty() && name != "dumb")
}

/// Whether anybody sees it does not matter to planning.
fn say(text: &str) {
    io::stderr().write_all(text.as_bytes()).ok();
}

#[cfg(test)]
mod tests {
    use kazhuvendi::Planned;

    use super::*;
    use crate::planning::Step;

    /// The most that there can be: 1,200 legs, and as many trials as always settle.
    #[test]
    fn the_longest_line_says_all_numbers() {
        let (greedy, trials) = (1_200 * 65_535, 1_200 * 65_535 * 240 * 240);
        let planned =
            Planned { distance: 10_000_000, trials, settled: false, left_out: 0, words: 0 };
        let step = Step { neighbours: Neighbours::Growing, planned, words: vec![] };
        let outcome =
            Outcome { last: vec![step], greedy, steps: 110, kept: 110, interrupted: false };
        let shown = shortened(&line(Neighbours::Growing, &outcome), WIDTH);
        assert_eq!(
            shown,
            "K 5-50: 4529779200000 trials, distance 10000000, 68642000 saved, 110 of 110 st\u{2026}"
        );
    }
}
