//! Tables for people: a day, a plan's vehicles at their earliest minutes, or one of them. No line
//! is longer than 100 characters.

use crate::clock::{counted, grouped, shortened, time, window};
use crate::day::{Day, Visit};
use crate::sheet::{Act, Entry, Round, Sheet};
use crate::text::Names;

/// A column's width; where it is negative, the cells stand at the right.
type Width = isize;

const PLAN_COLUMNS: [Width; 9] = [-6, -5, -5, 8, 24, 11, -7, -8, -10];
const PLAN_HEADS: [&str; 9] =
    ["arrive", "start", "leave", "what", "where", "open", "kg", "on board", "distance"];

const DAY_COLUMNS: [Width; 6] = [8, 40, 11, -7, -7, -15];
const DAY_HEADS: [&str; 6] = ["", "name", "open", "minutes", "kg", "from the depot"];

/// What a day asks for: limits, windows, tips and stops.
pub fn day_table(day: &Day, names: &Names) -> String {
    let mut table = heading(names);
    let kg = |kg: u32| format!("{} kg", grouped(u64::from(kg)));
    let said = [
        ("load", kg(day.load_limit)),
        ("load a day", kg(day.day_load_limit)),
        ("stops a day", day.day_stop_limit.to_string()),
        ("depot open", window(day.depot)),
        ("rest", format!("{}, {} minutes", window(day.rest), day.rest_minutes)),
    ];
    for (what, value) in said {
        table.push_str(&format!("{what:12}{value}\n"));
    }
    table.push('\n');
    table.push_str(&line(&DAY_COLUMNS, &DAY_HEADS.map(str::to_string)));
    for (number, tip) in (1..).zip(&day.tips) {
        let what = format!("tip {number}");
        table.push_str(&place_line(day, what, names.tip(number), tip, None, number));
    }
    for (number, stop) in (1..).zip(&day.stops) {
        let (what, place) = (format!("stop {number}"), day.place_of_stop(number));
        let kg = Some(stop.quantity);
        table.push_str(&place_line(day, what, names.stop(number), &stop.visit, kg, place));
    }
    let kg: u64 = day.stops.iter().map(|stop| u64::from(stop.quantity)).sum();
    let (stops, tips) = (counted(day.stops.len(), "stop"), counted(day.tips.len(), "tip"));
    table.push_str(&format!("\n{stops}, {tips}, {} kg in all\n", grouped(kg)));
    table
}

/// All vehicles of a plan, what they come to, and the stops left out.
pub fn plan_table(day: &Day, names: &Names, sheet: &Sheet) -> String {
    let mut table = heading(names);
    for round in &sheet.rounds {
        table.push_str(&round_table(day, names, round));
        table.push('\n');
    }
    let vehicles = counted(sheet.rounds.len(), "vehicle");
    let served = format!("{} of {}", sheet.stops(), counted(day.stops.len(), "stop"));
    let (kg, distance) = (grouped(sheet.collected()), grouped(sheet.distance()));
    table.push_str(&format!("{vehicles}, {served}, {kg} kg, distance {distance}\n"));
    table.push_str(&left_out(names, sheet));
    table
}

/// One vehicle of a plan, counted from 1.
///
/// # Panics
///
/// Where the plan has no such vehicle.
pub fn vehicle_table(day: &Day, names: &Names, sheet: &Sheet, number: usize) -> String {
    round_table(day, names, &sheet.rounds[number - 1])
}

fn heading(names: &Names) -> String {
    match names.day() {
        "" => String::new(),
        name => format!("{}\n\n", shortened(name, 100)),
    }
}

fn place_line(
    day: &Day,
    what: String,
    name: &str,
    visit: &Visit,
    quantity: Option<u32>,
    place: usize,
) -> String {
    let leg = day.leg(0, place);
    let cells = [
        what,
        name.to_string(),
        window(visit.window),
        visit.minutes.to_string(),
        quantity.map_or(String::new(), |kg| grouped(u64::from(kg))),
        format!("{} min {:>7}", leg.minutes, grouped(u64::from(leg.distance))),
    ];
    line(&DAY_COLUMNS, &cells)
}

fn round_table(day: &Day, names: &Names, round: &Round) -> String {
    let mut table = format!(
        "Vehicle {}: {} to {}, {}, {}, {} kg, distance {}\n\n",
        round.number,
        time(round.leaves()),
        time(round.back()),
        counted(round.stops, "stop"),
        counted(round.tippings(), "tipping"),
        grouped(u64::from(round.collected)),
        grouped(round.distance()),
    );
    table.push_str(&line(&PLAN_COLUMNS, &PLAN_HEADS.map(str::to_string)));
    for entry in &round.entries {
        table.push_str(&line(&PLAN_COLUMNS, &entry_cells(day, names, entry)));
    }
    table
}

fn entry_cells(day: &Day, names: &Names, entry: &Entry) -> [String; 9] {
    let (what, open, kg) = match entry.act {
        Act::Leave => ("leave".to_string(), None, None),
        Act::Rest => ("rest".to_string(), None, None),
        Act::Back => ("back".to_string(), None, None),
        Act::Tip(tip) => (format!("tip {tip}"), Some(day.tips[tip - 1].window), None),
        Act::Stop(stop) => {
            let asked = day.stops[stop - 1];
            (format!("stop {stop}"), Some(asked.visit.window), Some(asked.quantity))
        }
    };
    let blank_where = |blank: bool, minute| if blank { String::new() } else { time(minute) };
    [
        blank_where(matches!(entry.act, Act::Leave | Act::Rest), entry.arrival),
        blank_where(matches!(entry.act, Act::Leave | Act::Back), entry.start),
        blank_where(entry.act == Act::Back, entry.end),
        what,
        names.place(entry.place).to_string(),
        open.map_or(String::new(), window),
        kg.map_or(String::new(), |kg| grouped(u64::from(kg))),
        grouped(u64::from(entry.load)),
        grouped(entry.distance),
    ]
}

fn left_out(names: &Names, sheet: &Sheet) -> String {
    if sheet.left_out.is_empty() {
        return "no stop is left out\n".to_string();
    }
    let stops = sheet.left_out.iter().map(|stop| {
        let (what, name) = (format!("stop {stop}"), names.stop(*stop));
        if what == name {
            what
        } else {
            format!("{what} {name}")
        }
    });
    let lines: String = stops.map(|stop| format!("  {}\n", shortened(&stop, 98))).collect();
    format!("left out:\n{lines}")
}

/// Cells side by side, each at its column's width, with nothing behind the last.
fn line<const N: usize>(columns: &[Width; N], cells: &[String; N]) -> String {
    let mut line = String::new();
    for (column, cell) in columns.iter().zip(cells) {
        let width = column.unsigned_abs();
        let cell = shortened(cell, width);
        if *column < 0 {
            line.push_str(&format!("{cell:>width$}  "));
        } else {
            line.push_str(&format!("{cell:width$}  "));
        }
    }
    format!("{}\n", line.trim_end())
}
