//! `kz chart`: a plan as a picture.

use kazhuvendi::Totals;

use crate::answer::{Answer, Failure, Product};
use crate::arguments::Call;
use crate::catalogue::{Command, DAY, OUTPUT, PLAN};
use crate::chart;
use crate::day::Day;
use crate::inputs;
use crate::json::Json;
use crate::sheet::Sheet;

pub const COMMAND: Command = Command {
    name: "chart",
    summary: "draw a plan as an SVG picture, one lane a vehicle",
    operands: &[DAY, PLAN],
    options: &[&OUTPUT],
    about: &[
        "Each vehicle has a lane over the hours of the day: driving, service, waiting, tipping and \
         rest, with the windows of its stops. The picture can be printed, and any browser shows it.",
        "The plan has to be lawful. The minutes are the earliest, as in `kz show`.",
    ],
    run,
};

fn run(call: &Call) -> Result<Answer, Failure> {
    let given = inputs::day(call)?;
    let (plan, totals) = inputs::lawful_plan(call, 1, &given)?;
    let day = Day::of(&given.words);
    let svg = chart::svg(&day, &given.names, &Sheet::of(&day, &plan.words));
    let (label, Totals { vehicles, distance, .. }) = (given.label(), totals);
    let report = format!("drawn: {label}: vehicles {vehicles}, distance {distance}\n");
    let json = Json::Object(vec![
        ("vehicles", vehicles.into()),
        ("distance", distance.into()),
        ("svg", svg.as_str().into()),
    ]);
    Ok(Answer::made(report, json, Product::Text(svg)).warned(plan.warning))
}
