//! A day written as text, with its legs as a matrix.

use super::fields::is_curly;
use super::matrix::NO_WAY;
use super::names::Names;
use super::HEADING;
use crate::clock::window;
use crate::day::{Day, Leg, Visit};

/// The text of an accepted day, from which [`super::parse`] gives the same words and names.
///
/// # Panics
///
/// Where `kazhuvendi::judge` refuses the words, or the names are those of another day.
pub fn write(words: &[u32], names: &Names) -> String {
    let day = Day::of(words);
    let mut text = format!("{HEADING} {}", field(names.day())).trim_end().to_string();
    text.push_str(&head(&day));
    let width = longest((1..day.places()).map(|place| field(names.place(place))));
    for (number, tip) in (1..).zip(&day.tips) {
        let name = field(names.tip(number));
        text.push_str(&format!("tip  {name:width$}  {}\n", visit(tip)));
    }
    text.push('\n');
    for (number, stop) in (1..).zip(&day.stops) {
        let (name, kg) = (field(names.stop(number)), stop.quantity);
        text.push_str(&format!("stop {name:width$}  {}  {kg:6} kg\n", visit(&stop.visit)));
    }
    text.push_str("\nlegs by matrix\n# minutes/distance to the depot, each tip and each stop\n");
    text.push_str(&rows(&day, names));
    text
}

fn head(day: &Day) -> String {
    format!(
        "\n\nload        {:7} kg\nload-a-day  {:7} kg\nstops-a-day {:7}\n\ndepot {}\nrest  {}  {:3} min\n\n",
        day.load_limit,
        day.day_load_limit,
        day.day_stop_limit,
        window(day.depot),
        window(day.rest),
        day.rest_minutes
    )
}

fn visit(visit: &Visit) -> String {
    format!("{}  {:3} min", window(visit.window), visit.minutes)
}

fn rows(day: &Day, names: &Names) -> String {
    let places = 0..day.places();
    let name_width = longest(places.clone().map(|place| field(names.place(place))));
    let leg_width = longest(day.legs.iter().map(|leg| written(*leg)));
    let mut rows = String::new();
    for from in places.clone() {
        rows.push_str(&format!("{:name_width$}", field(names.place(from))));
        for to in places.clone() {
            let leg = if from == to { NO_WAY.to_string() } else { written(day.leg(from, to)) };
            rows.push_str(&format!(" {leg:>leg_width$}"));
        }
        rows.push('\n');
    }
    rows
}

fn written(leg: Leg) -> String {
    format!("{}/{}", leg.minutes, leg.distance)
}

/// A name as a field: between quotes where it is more than a word, or begins with a quote itself.
fn field(name: &str) -> String {
    let more_than_a_word = |c: char| c.is_whitespace() || c == '#';
    if name.contains(more_than_a_word) || name.starts_with(is_curly) {
        format!("\"{name}\"")
    } else {
        name.to_string()
    }
}

fn longest(fields: impl Iterator<Item = String>) -> usize {
    fields.map(|field| field.chars().count()).max().unwrap_or(0)
}
