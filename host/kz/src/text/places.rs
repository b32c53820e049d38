//! The lines of a text on which its tips and stops stand, so that a message about a plan can say
//! where in the day a stop is.

/// The lines of the tips and of the stops, counted from 1; none for a day that came as words.
#[derive(Clone, Debug, Default, PartialEq, Eq)]
pub struct PlaceLines {
    tips: Vec<usize>,
    stops: Vec<usize>,
}

impl PlaceLines {
    /// The lines of a text that [`super::parse`] reads, so that each begins with its statement.
    pub fn of(text: &[u8]) -> PlaceLines {
        let mut lines = PlaceLines::default();
        for (number, line) in (1..).zip(String::from_utf8_lossy(text).lines()) {
            match line.split_whitespace().next() {
                Some("tip") => lines.tips.push(number),
                Some("stop") => lines.stops.push(number),
                Some("legs") => break,
                _ => {}
            }
        }
        lines
    }

    /// These lines of tips and stops.
    pub fn on(tips: Vec<usize>, stops: Vec<usize>) -> PlaceLines {
        PlaceLines { tips, stops }
    }

    /// The line of a tip, counted from 1.
    pub fn tip(&self, tip: usize) -> Option<usize> {
        self.tips.get(tip.checked_sub(1)?).copied()
    }

    /// The line of a stop, counted from 1.
    pub fn stop(&self, stop: usize) -> Option<usize> {
        self.stops.get(stop.checked_sub(1)?).copied()
    }
}

#[cfg(test)]
mod tests {
    use super::PlaceLines;

    #[test]
    fn comments_and_rows_of_legs_are_no_places() {
        let text =
            "day\n# stop none\n\n\tstop a 0-1 # tip\ntip b\nstop \"c d\"\nlegs by matrix\nstop\n";
        let lines = PlaceLines::of(text.as_bytes());
        assert_eq!([lines.stop(1), lines.stop(2), lines.stop(3)], [Some(4), Some(6), None]);
        assert_eq!([lines.tip(0), lines.tip(1), lines.tip(2)], [None, Some(5), None]);
    }
}
