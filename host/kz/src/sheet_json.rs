//! Days and sheets as JSON. Minutes count from midnight, as in the day file.

use crate::day::{Day, Visit, Window};
use crate::json::Json;
use crate::sheet::{Act, Entry, Round, Sheet};
use crate::text::Names;

/// A day without its legs.
pub fn day(day: &Day, names: &Names) -> Json {
    let tips = (1..).zip(&day.tips).map(|(number, tip)| visit(number, names.tip(number), tip));
    let stops = (1..).zip(&day.stops).map(|(number, stop)| {
        let mut members = visit(number, names.stop(number), &stop.visit);
        members.push(("quantity", stop.quantity.into()));
        Json::Object(members)
    });
    Json::Object(vec![
        ("name", names.day().into()),
        ("load_limit", day.load_limit.into()),
        ("day_load_limit", day.day_load_limit.into()),
        ("day_stop_limit", day.day_stop_limit.into()),
        ("depot", Json::Object(window(day.depot).into())),
        ("rest", Json::Object(window(day.rest).into())),
        ("rest_minutes", day.rest_minutes.into()),
        ("tips", Json::List(tips.map(Json::Object).collect())),
        ("stops", Json::List(stops.collect())),
    ])
}

fn visit(number: usize, name: &str, visit: &Visit) -> Vec<(&'static str, Json)> {
    let mut members = vec![("number", number.into()), ("name", name.into())];
    members.extend(window(visit.window));
    members.push(("minutes", visit.minutes.into()));
    members
}

fn window(window: Window) -> [(&'static str, Json); 2] {
    [("opening", window.opening.into()), ("closing", window.closing.into())]
}

/// A plan by its sheets.
pub fn plan(sheet: &Sheet, names: &Names) -> Json {
    let sheets = sheet.rounds.iter().map(|vehicle| round(vehicle, names)).collect();
    let left_out = sheet.left_out.iter().map(|&stop| {
        Json::Object(vec![("number", stop.into()), ("name", names.stop(stop).into())])
    });
    Json::Object(vec![
        ("distance", sheet.distance().into()),
        ("vehicles", sheet.rounds.len().into()),
        ("served", sheet.stops().into()),
        ("left_out", sheet.left_out.len().into()),
        ("collected", sheet.collected().into()),
        ("sheets", Json::List(sheets)),
        ("stops_left_out", Json::List(left_out.collect())),
    ])
}

/// What one vehicle does.
pub fn round(round: &Round, names: &Names) -> Json {
    Json::Object(vec![
        ("vehicle", round.number.into()),
        ("distance", round.distance().into()),
        ("served", round.stops.into()),
        ("collected", round.collected.into()),
        ("entries", Json::List(round.entries.iter().map(|entry| line(entry, names)).collect())),
    ])
}

/// One line of a sheet.
fn line(entry: &Entry, names: &Names) -> Json {
    let (act, number) = match entry.act {
        Act::Leave => ("leave", None),
        Act::Stop(stop) => ("stop", Some(stop)),
        Act::Tip(tip) => ("tip", Some(tip)),
        Act::Rest => ("rest", None),
        Act::Back => ("back", None),
    };
    let mut members = vec![("act", act.into())];
    members.extend(number.map(|number| ("number", number.into())));
    members.extend([
        ("at", names.place(entry.place).into()),
        ("arrival", entry.arrival.into()),
        ("start", entry.start.into()),
        ("end", entry.end.into()),
        ("load", entry.load.into()),
        ("distance", entry.distance.into()),
    ]);
    Json::Object(members)
}
