//! The names over a bar. They rise to the right, so that they can stand close to each other, and
//! no two stand closer than their letters are high. The closer the stops, the steeper they rise.

use super::layout::{has_own_name, number_fits, Scale, LEFT, RIGHT};
use crate::clock::shortened;
use crate::sheet::{Act, Entry, Round};
use crate::text::Names;

/// A name over a bar.
#[derive(Debug)]
pub(super) struct Label {
    pub text: String,
    pub is_tip: bool,
    /// The middle of what it names.
    pub wanted: f64,
}

/// The most letters of a name over a bar.
const LONGEST: usize = 20;

/// What stands over the bar of a vehicle.
pub(super) fn labels(names: &Names, round: &Round, scale: Scale) -> Vec<Label> {
    let label = |entry: &Entry| {
        let wanted = (scale.x(entry.start) + scale.x(entry.end)) / 2.0;
        let is_tip = matches!(entry.act, Act::Tip(_));
        Some(Label { text: text(names, entry, scale)?, is_tip, wanted })
    };
    round.entries.iter().filter_map(label).collect()
}

/// Each stop's name, or its number where it has no other name and the number does not fit into the
/// bar; each tip's number.
fn text(names: &Names, entry: &Entry, scale: Scale) -> Option<String> {
    match entry.act {
        Act::Stop(stop) if has_own_name(names, stop) => Some(shortened(names.stop(stop), LONGEST)),
        Act::Stop(stop) => {
            Some(stop.to_string()).filter(|number| !number_fits(number, entry, scale))
        }
        Act::Tip(tip) => Some(format!("T{tip}")),
        Act::Leave | Act::Rest | Act::Back => None,
    }
}

/// How labels rise, and how large their letters are. Sine and cosine are written out, so that they
/// are the same on every machine.
#[derive(Clone, Copy, Debug, PartialEq)]
pub(super) struct Rise {
    pub degrees: u32,
    sine: f64,
    cosine: f64,
    pub size: f64,
}

const FLAT: Rise = Rise { degrees: 33, sine: 0.545, cosine: 0.839, size: 8.8 };
const STEEP: Rise = Rise { degrees: 60, sine: 0.866, cosine: 0.5, size: 8.8 };
const UPRIGHT: Rise = Rise { degrees: 90, sine: 1.0, cosine: 0.0, size: 8.8 };

/// From the easiest to read on.
const RISES: [Rise; 6] = [
    FLAT,
    STEEP,
    UPRIGHT,
    Rise { size: 7.5, ..UPRIGHT },
    Rise { size: 6.0, ..UPRIGHT },
    Rise { size: 4.5, ..UPRIGHT },
];

/// How far a label may stand beside what it names.
const FARTHEST: f64 = 22.0;
/// How wide a letter is on average, and how high with the room to the next line, in its size.
const LETTER_WIDTH: f64 = 0.53;
const LETTER_HEIGHT: f64 = 1.145;
/// How far over the bar labels begin.
pub(super) const LIFT: f64 = 6.0;

impl Rise {
    /// How far apart two labels are along the bar.
    fn pitch(&self) -> f64 {
        self.size * LETTER_HEIGHT / self.sine
    }

    /// What labels of so many letters need over the bar.
    pub fn height(&self, letters: usize) -> f64 {
        let length = (letters as f64 + 0.5) * LETTER_WIDTH * self.size;
        LIFT + length * self.sine + self.size * self.cosine * 0.75
    }
}

/// The first rise that lets the labels of every lane stand near what they name.
pub(super) fn rise(lanes: &[Vec<Label>]) -> Rise {
    let near = |rise: &Rise, labels: &[Label]| {
        let places = place(labels, *rise);
        labels.iter().zip(places).all(|(label, place)| (label.wanted - place).abs() <= FARTHEST)
    };
    let all_near = |rise: &&Rise| lanes.iter().all(|labels| near(rise, labels));
    *RISES.iter().find(all_near).unwrap_or(&RISES[RISES.len() - 1])
}

/// Places labels over what they name, or beside it where two would touch.
pub(super) fn place(labels: &[Label], rise: Rise) -> Vec<f64> {
    let room = (RIGHT - LEFT) / labels.len().max(1) as f64;
    let pitch = room.min(rise.pitch());
    let mut places: Vec<f64> = labels.iter().map(|label| label.wanted).collect();
    let mut free = LEFT;
    for place in &mut places {
        *place = place.max(free);
        free = *place + pitch;
    }
    let mut free = RIGHT;
    for place in places.iter_mut().rev() {
        *place = place.min(free);
        free = *place - pitch;
    }
    places
}

#[cfg(test)]
mod tests {
    use super::*;

    fn at(wanted: &[f64]) -> Vec<Label> {
        let label = |wanted: &f64| Label { text: String::new(), is_tip: false, wanted: *wanted };
        wanted.iter().map(label).collect()
    }

    /// So many labels at this distance from each other.
    fn row(count: u32, apart: f64) -> Vec<Label> {
        at(&(0..count).map(|k| LEFT + apart * f64::from(k)).collect::<Vec<_>>())
    }

    fn assert_apart(labels: &[Label], rise: Rise) {
        let places = place(labels, rise);
        for pair in places.windows(2) {
            assert!(pair[1] - pair[0] > rise.pitch() - 1e-6, "{places:?}");
        }
        let inside = |place: &f64| (LEFT - 1e-6..=RIGHT + 1e-6).contains(place);
        assert!(places.iter().all(inside), "{places:?}");
    }

    #[test]
    fn labels_that_have_room_stand_over_what_they_name() {
        let wanted = [200.0, 240.0, 280.0];
        assert_eq!(place(&at(&wanted), FLAT), wanted);
    }

    #[test]
    fn labels_are_moved_apart_and_stay_inside() {
        assert_apart(&at(&[200.0, 200.0, 202.0, 290.0]), FLAT);
        assert_apart(&at(&[RIGHT - 3.0, RIGHT - 2.0, RIGHT]), STEEP);
        assert_apart(&row(90, 1.0), UPRIGHT);
    }

    #[test]
    fn labels_rise_the_steeper_the_closer_they_are() {
        let degrees = |apart| rise(&[row(20, 40.0), row(40, apart)]).degrees;
        assert_eq!([19.0, 12.0, 10.5].map(degrees), [33, 60, 90]);
        assert!(rise(&[row(100, 8.8)]).size < FLAT.size);
        assert_eq!(rise(&[row(240, 0.0)]), RISES[5]);
    }
}
