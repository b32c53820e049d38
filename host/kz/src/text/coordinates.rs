//! Legs by coordinates: the straight way, or the great circle where they are degrees, times a detour
//! factor and driven at one speed. Every machine gets the same legs.

use super::degrees::Direction;
use super::draft::Draft;
use super::error::TextError;
use super::faults::Found;
use super::fields::Fields;
use super::measure::{Measure, Unit};
use super::values::{Position, MILLION};
use crate::day::{Leg, DEPOT};

/// `km 28 km/h detour 1.35`, behind `legs by coordinates`; then the legs between all places.
pub(super) fn read(
    draft: &Draft,
    fields: &mut Fields<'_>,
    found: &mut Found,
) -> Result<Vec<Leg>, TextError> {
    let unit = fields.left().first().map_or(fields.end(), |unit| unit.spot);
    let measure = Measure::read(fields)?;
    let Some(positions) = positions(draft, measure.unit, found) else { return Ok(Vec::new()) };
    // A wrong speed or factor was replaced, and its legs would be wrong too.
    if fields.has_noted() {
        return Ok(Vec::new());
    }
    let places = positions.len();
    if measure.unit == Unit::Degrees {
        let directions: Vec<Direction> = positions.iter().map(Direction::of).collect();
        let detour = u64::from(measure.detour);
        let way = |from: usize, to: usize| {
            (directions[from].millimetres(&directions[to]) * detour).div_ceil(100_000)
        };
        return Ok(legs(draft, places, &measure, way, found));
    }
    if look_like_degrees(&positions) {
        return Err(unit.error(degrees_instead(&measure)));
    }
    let plane = Plane::of(positions, &measure);
    Ok(legs(draft, places, &measure, |from, to| plane.way(from, to), found))
}

/// The positions of all places, where all are known and can be what the unit says.
fn positions(draft: &Draft, unit: Unit, found: &mut Found) -> Option<Vec<Position>> {
    let sites = draft.sites();
    let mut positions = Vec::with_capacity(sites.len());
    for (place, site) in sites.iter().enumerate() {
        let fault = match site.position {
            Some(position) if unit == Unit::Degrees && !is_on_globe(&position) => {
                "latitudes are -90 to 90 and longitudes -180 to 180: at LATITUDE LONGITUDE".into()
            }
            Some(position) => {
                positions.push(position);
                continue;
            }
            None if site.faulty => continue,
            None => format!("\"{}\" has no coordinates: at X Y", draft.names.place(place)),
        };
        found.add(site.spot.error(fault));
    }
    Some(positions).filter(|positions| positions.len() == sites.len())
}

fn is_on_globe(position: &Position) -> bool {
    position.x.abs() <= 90 * MILLION && position.y.abs() <= 180 * MILLION
}

/// The legs between all places, row by row. Both directions are the same. Of each place, the first
/// way that no leg can hold is told; where most places have one, the unit is likely wrong, and one
/// of them says enough.
fn legs(
    draft: &Draft,
    places: usize,
    measure: &Measure,
    way: impl Fn(usize, usize) -> u64,
    found: &mut Found,
) -> Vec<Leg> {
    let mut legs = vec![Leg::default(); places * places];
    let mut too_long = Vec::new();
    for to in 0..places {
        for from in 0..to {
            match measure.leg(way(from, to)) {
                Ok(leg) => (legs[from * places + to], legs[to * places + from]) = (leg, leg),
                Err(takes) => {
                    too_long.push((from, to, takes));
                    break;
                }
            }
        }
    }
    let sites = draft.sites();
    let most = 2 * too_long.len() > places;
    for (from, to, takes) in too_long.into_iter().take(if most { 1 } else { places }) {
        let (start, end) = (draft.names.place(from), draft.names.place(to));
        let others = if most { "; most other places are too far as well" } else { "" };
        let message = format!("the way from \"{start}\" to \"{end}\" takes {takes}{others}");
        found.add(sites[to].spot.error(message));
    }
    legs
}

/// Positions on a plane, in whole numbers.
struct Plane {
    positions: Vec<Position>,
    /// How many steps of a position a metre has.
    steps_a_metre: u128,
    /// The detour factor in hundredths.
    detour: u128,
}

impl Plane {
    /// Most days have no more than three decimals, and smaller numbers are faster.
    fn of(mut positions: Vec<Position>, measure: &Measure) -> Plane {
        let mut steps_a_metre = if measure.unit == Unit::Metres { 1_000_000 } else { 1_000 };
        if positions.iter().all(|position| position.x % 1_000 == 0 && position.y % 1_000 == 0) {
            steps_a_metre /= 1_000;
            for position in &mut positions {
                *position = Position { x: position.x / 1_000, y: position.y / 1_000 };
            }
        }
        Plane { positions, steps_a_metre, detour: measure.detour.into() }
    }

    /// The straight way times the detour factor, in metres, rounded up.
    fn way(&self, from: usize, to: usize) -> u64 {
        let (start, end) = (&self.positions[from], &self.positions[to]);
        let (across, along) = (start.x.abs_diff(end.x), start.y.abs_diff(end.y));
        let square = u128::from(across).pow(2) + u128::from(along).pow(2);
        let way = root_rounded_up(square * self.detour.pow(2));
        way.div_ceil(100 * self.steps_a_metre) as u64
    }
}

/// The least whole number whose square is no less.
fn root_rounded_up(square: u128) -> u128 {
    let root = square.isqrt();
    root + u128::from(root * root < square)
}

/// Whether positions that are said to be km or m are latitudes and longitudes, by all appearance:
/// they have decimals, could be on the globe, and lie close together and far from 0. A town's
/// streets are more than five metres apart, and a map in km has its corner near. Where both
/// latitude and longitude are below 4 degrees there is no land.
fn look_like_degrees(positions: &[Position]) -> bool {
    let known = addresses(positions);
    let spread = |coordinate: fn(&Position) -> i64| {
        let least = known.iter().map(coordinate).min().unwrap_or(0);
        known.iter().map(coordinate).max().unwrap_or(0) - least
    };
    let spread = spread(|position| position.x).max(spread(|position| position.y));
    let farthest = known.iter().map(|position| position.x.abs().max(position.y.abs())).max();
    let turned = |position: &Position| is_on_globe(&Position { x: position.y, y: position.x });
    let has_decimals = |position: &Position| position.x % MILLION != 0 || position.y % MILLION != 0;
    spread <= 5 * MILLION
        && farthest.unwrap_or(0) >= 4 * MILLION.max(spread)
        && known.iter().any(has_decimals)
        && (known.iter().all(is_on_globe) || known.iter().all(turned))
}

/// The depot, and the other places that are not at 0 0, where programs put an address that they
/// don't find.
fn addresses(positions: &[Position]) -> Vec<Position> {
    let is_known = |position: &Position| (position.x, position.y) != (0, 0);
    let places = positions.iter().enumerate();
    let known = places.filter(|(place, position)| *place == DEPOT || is_known(position));
    known.map(|(_, position)| *position).collect()
}

fn degrees_instead(measure: &Measure) -> String {
    let Measure { unit, speed, detour, .. } = measure;
    let (name, detour) = (unit.name(), format!("{}.{:02}", detour / 100, detour % 100));
    let truly = if *unit == Unit::Kilometres { "; if they are km, give them in m" } else { "" };
    format!(
        "the coordinates look like degrees, not like {name}: write \"legs by coordinates degrees \
         {speed} km/h detour {detour}\", with the latitude first in each \"at\"{truly}"
    )
}

#[cfg(test)]
mod tests {
    use super::*;

    fn way(unit: Unit, detour: u32, x: i64, y: i64) -> u64 {
        let measure = Measure { unit, speed: 1, detour, metres: 1 };
        let (start, end) = (Position { x: -1, y: 2 }, Position { x: x - 1, y: y + 2 });
        Plane::of(vec![start, end], &measure).way(0, 1)
    }

    #[test]
    fn ways_are_rounded_up_to_a_metre() {
        assert_eq!(way(Unit::Kilometres, 100, 3_000_000, 4_000_000), 5_000);
        assert_eq!(way(Unit::Kilometres, 100, -3_000_000, 4_000_000), 5_000);
        assert_eq!(way(Unit::Metres, 100, 3_000_000_000, 4_000_000_000), 5_000);
        assert_eq!(way(Unit::Kilometres, 100, 3_000_001, 4_000_000), 5_001);
        assert_eq!(way(Unit::Metres, 100, 3_000_000_001, 4_000_000_000), 5_001);
        assert_eq!(way(Unit::Kilometres, 150, 0, 3_000), 5);
        assert_eq!(way(Unit::Kilometres, 150, 0, 0), 0);
        assert_eq!(way(Unit::Metres, 999, i64::pow(10, 14), i64::pow(10, 14)), 1_412_799_349);
    }

    /// Ways are the same, whether the numbers are made smaller or not.
    #[test]
    fn three_decimals_are_measured_as_six() {
        let measure = Measure { unit: Unit::Kilometres, speed: 1, detour: 137, metres: 1 };
        for step in 0..200 {
            let (start, end) = (Position { x: 0, y: 0 }, Position { x: 7_000 * step, y: 91_000 });
            let fine = Position { x: 1, y: 1 };
            let short = Plane::of(vec![start, end], &measure);
            let long = Plane::of(vec![start, end, fine], &measure);
            assert_eq!((short.steps_a_metre, long.steps_a_metre), (1, 1_000));
            assert_eq!(short.way(0, 1), long.way(0, 1));
        }
    }

    #[test]
    fn a_root_is_the_least_whole_number_whose_square_is_no_less() {
        let mut root: u128 = 0;
        for square in 0..5_000 {
            root += u128::from(root * root < square);
            assert_eq!(root_rounded_up(square), root, "of {square}");
        }
    }

    #[test]
    fn degrees_are_told_from_a_map_of_a_town() {
        let degrees = |places: &[(f64, f64)]| {
            let millionths = |value: f64| (value * 1e6).round() as i64;
            let position = |&(x, y): &(f64, f64)| Position { x: millionths(x), y: millionths(y) };
            look_like_degrees(&places.iter().map(position).collect::<Vec<_>>())
        };
        assert!(degrees(&[(51.507, -0.128), (51.62, 0.01), (51.4, -0.3)]), "London");
        assert!(degrees(&[(151.2093, -33.8688), (151.0, -33.9)]), "Sydney, longitude first");
        assert!(degrees(&[(51.507, -0.128), (0.0, 0.0), (51.4, -0.3)]), "an address not found");
        assert!(degrees(&[(5.56, -0.2), (5.7, 0.0)]), "Accra");
        assert!(degrees(&[(0.39, 9.45), (0.5, 9.4)]), "Libreville");
        assert!(degrees(&[(64.1, -21.9), (65.7, -18.1)]), "Iceland");
        assert!(!degrees(&[(1.1, 0.9), (0.3, 4.8), (3.7, 2.4)]), "a map with its corner near");
        assert!(!degrees(&[(0.1, 0.2), (0.3, 0.4)]), "a few streets around the corner of a map");
        assert!(!degrees(&[(0.0, 0.0), (20.5, 30.5), (21.5, 30.5)]), "a map around the depot");
        assert!(!degrees(&[(51.0, 7.0), (52.0, 8.0)]), "whole numbers");
        assert!(!degrees(&[(461.5, 5333.2), (462.1, 5334.0)]), "a national grid in km");
        assert!(!degrees(&[(20.5, 30.5), (28.5, 30.5)]), "a district in km");
    }
}
