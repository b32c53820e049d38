//! The day that a text without an offence gives.

use super::form::{DEPOT, FLEET};
use super::lines::Line;
use crate::day::{Day, Leg, Limits, Stop, Tip, Window};

/// "Q is the capacity, Q* 1,000,000, S* 240, the rest window 1,440..1,440 with 0 minutes. One tip
/// stands at the depot with the depot's window and no service."
pub fn day(lines: &[Line]) -> Day {
    let customers = &lines[DEPOT..];
    let depot = window(&customers[0]);
    Day {
        limits: Limits { load: used(&lines[FLEET], 1), day_load: 1_000_000, day_stops: 240 },
        depot,
        rest: Window { opening: 1_440, closing: 1_440 },
        rest_minutes: 0,
        tips: vec![Tip { window: depot, service: 0 }],
        stops: customers[1..].iter().map(stop).collect(),
        legs: legs(customers),
    }
}

/// A number that is used. It is within its limits.
fn used(line: &Line, field: usize) -> u32 {
    line.fields[field].number().expect("a number") as u32
}

/// "Ready time, due date."
fn window(customer: &Line) -> Window {
    Window { opening: used(customer, 4), closing: used(customer, 5) }
}

fn stop(customer: &Line) -> Stop {
    Stop { window: window(customer), service: used(customer, 6), quantity: used(customer, 3) }
}

/// The places are the depot, the tip, which stands there too, and the stops.
fn legs(customers: &[Line]) -> Vec<Vec<Leg>> {
    let point = |customer| (used(customer, 1), used(customer, 2));
    let points: Vec<_> = customers[..1].iter().chain(customers).map(point).collect();
    points.iter().map(|from| points.iter().map(|to| leg(*from, *to)).collect()).collect()
}

/// "A leg's minutes are the greatest whole number whose square is at most dx² + dy², and its distance
/// the greatest whose square is at most 100 times that sum."
fn leg(from: (u32, u32), to: (u32, u32)) -> Leg {
    let (dx, dy) = (from.0.abs_diff(to.0), from.1.abs_diff(to.1));
    let sum = u64::from(dx * dx + dy * dy);
    Leg { minutes: root(sum) as u32, distance: root(100 * sum) as u32 }
}

/// The greatest whole number whose square is at most this one: the range that it is in is halved
/// until one number is left.
fn root(square: u64) -> u64 {
    let (mut root, mut above) = (0, 20_000);
    while above - root > 1 {
        let middle = (root + above) / 2;
        if middle * middle <= square {
            root = middle;
        } else {
            above = middle;
        }
    }
    root
}

#[cfg(test)]
mod tests {
    use super::root;

    /// No sum is above 2,000,000, and 100 times that has 14,142 for its root.
    #[test]
    fn the_root_of_each_number_up_to_the_largest_is_the_greatest() {
        let mut greatest = 0;
        for number in 0..=200_000_000_u64 {
            if number.is_multiple_of(97) || number < 2_000_000 {
                while (greatest + 1) * (greatest + 1) <= number {
                    greatest += 1;
                }
                assert_eq!(root(number), greatest, "{number}");
            }
        }
        assert_eq!(greatest, 14_142);
    }
}
