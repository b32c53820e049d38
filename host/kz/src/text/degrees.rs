//! Ways on the globe, from latitudes and longitudes. Sums, products, quotients and roots alone are
//! used, which every machine rounds alike: the sines of a mathematical library are not the same
//! everywhere.

use super::values::{Position, MILLION};

/// The mean radius of the earth, in millimetres.
const RADIUS: f64 = 6_371_008_800.0;

/// How often an arc is halved before its series is summed.
const HALVINGS: i32 = 3;

/// Where a place is: the direction from the middle of the earth.
#[derive(Clone, Copy, Debug)]
pub(super) struct Direction([f64; 3]);

impl Direction {
    /// Of a latitude and a longitude in millionths of a degree.
    pub fn of(position: &Position) -> Direction {
        let (north, level) = sine_and_cosine(position.x);
        let (east, ahead) = sine_and_cosine(position.y);
        Direction([level * ahead, level * east, north])
    }

    /// The way to another place along the great circle, in millimetres.
    pub fn millimetres(&self, other: &Direction) -> u64 {
        let square = |(here, there): (&f64, &f64)| (here - there) * (here - there);
        let chord = self.0.iter().zip(&other.0).map(square).sum::<f64>().sqrt();
        (2.0 * RADIUS * arc(chord / 2.0) + 0.5) as u64
    }
}

/// The sine and the cosine of an angle in millionths of a degree.
fn sine_and_cosine(angle: i64) -> (f64, f64) {
    let quarter = 90 * MILLION;
    let turns = (angle + quarter / 2).div_euclid(quarter);
    let rest = (angle - turns * quarter) as f64 * (std::f64::consts::PI / (180 * MILLION) as f64);
    let (sine, cosine) = (series(rest, rest, 1), series(1.0, rest, 0));
    match turns.rem_euclid(4) {
        0 => (sine, cosine),
        1 => (cosine, -sine),
        2 => (-sine, -cosine),
        _ => (-cosine, sine),
    }
}

/// The series of the sine (power 1) or cosine (power 0) from its first term on. The angle is an
/// eighth of a turn at most, so ten terms are as exact as the numbers are.
fn series(first: f64, angle: f64, power: u32) -> f64 {
    let (mut term, mut sum) = (first, first);
    for step in 1..10 {
        let next = f64::from(2 * step + power);
        term *= -angle * angle / ((next - 1.0) * next);
        sum += term;
    }
    sum
}

/// The angle that has this sine, a quarter turn at most. Halved three times, it is small enough for
/// twelve terms of its series.
fn arc(sine: f64) -> f64 {
    let mut sine = sine.min(1.0);
    for _ in 0..HALVINGS {
        sine /= (2.0 * (1.0 + (1.0 - sine * sine).sqrt())).sqrt();
    }
    let (mut term, mut sum) = (sine, sine);
    for step in 1..12 {
        let even = f64::from(2 * step);
        term *= sine * sine * (even - 1.0) / even;
        sum += term / (even + 1.0);
    }
    sum * f64::from(1 << HALVINGS)
}

#[cfg(test)]
mod tests {
    use super::*;

    fn metres(from: (f64, f64), to: (f64, f64)) -> u64 {
        let millionths = |degrees: f64| (degrees * MILLION as f64).round() as i64;
        let direction = |(latitude, longitude)| {
            Direction::of(&Position { x: millionths(latitude), y: millionths(longitude) })
        };
        direction(from).millimetres(&direction(to)).div_ceil(1_000)
    }

    /// A degree of a great circle is a 360th of the earth's girth, 111,195.08 m.
    #[test]
    fn a_degree_is_as_long_as_it_is_on_the_globe() {
        assert_eq!(metres((0.0, 0.0), (0.0, 1.0)), 111_196);
        assert_eq!(metres((45.0, 7.0), (46.0, 7.0)), 111_196);
        assert_eq!(metres((10.0, 179.5), (10.0, -179.5)), metres((10.0, 20.0), (10.0, 21.0)));
        assert_eq!(metres((90.0, 0.0), (0.0, 33.0)), 90 * 111_195 + 8);
        assert_eq!(metres((0.0, 0.0), (0.0, 180.0)), 20_015_115);
        assert_eq!(metres((51.5, -0.1), (51.5, -0.1)), 0);
    }

    /// By the haversine formula of the machine's own library, from one metre to half the globe.
    #[test]
    fn ways_are_those_of_the_haversine_formula() {
        let haversine = |from: (f64, f64), to: (f64, f64)| {
            let half = |degrees: f64| (degrees.to_radians() / 2.0).sin().powi(2);
            let level = from.0.to_radians().cos() * to.0.to_radians().cos();
            let root = (half(to.0 - from.0) + level * half(to.1 - from.1)).sqrt();
            2.0 * 6_371_008.8 * root.min(1.0).asin()
        };
        for step in 0..400 {
            let step = f64::from(step);
            let from = (-89.0 + step * 0.4, 170.0 - step * 0.7);
            let way = 0.000_01 * 1.03_f64.powf(step);
            let to = (from.0 + way.min(89.0 - from.0), from.1 + way);
            let (exact, whole) = (haversine(from, to), metres(from, to) as f64);
            assert!((-0.2..1.2).contains(&(whole - exact)), "{from:?} {to:?}: {exact} {whole}");
        }
    }
}
