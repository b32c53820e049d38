//! `kz check`: whether a plan is lawful.

use crate::answer::{Answer, Failure};
use crate::arguments::Call;
use crate::catalogue::{Command, DAY, PLAN};
use crate::inputs;
use crate::json::Json;

pub const COMMAND: Command = Command {
    name: "check",
    summary: "check a plan of a day: lawful, or what is wrong with which word",
    operands: &[DAY, PLAN],
    options: &[],
    about: &[
        "Of a lawful plan it gives the distance, the vehicles and the stops served. A plan that is \
         not lawful is refused, with one of the numbers that FORMAT.md lists and the place of the \
         first word at fault, and the exit status is 1.",
        "The plan may come from anywhere; the check knows nothing of how plans are made.",
    ],
    run,
};

fn run(call: &Call) -> Result<Answer, Failure> {
    let day = inputs::day(call)?;
    let (plan, totals) = inputs::lawful_plan(call, 1, &day)?;
    let left_out = day.stops - totals.served;
    let report = format!(
        "lawful: {}: distance {}, vehicles {}, stops served {}, left out {left_out}\n",
        day.label(),
        totals.distance,
        totals.vehicles,
        totals.served
    );
    let json = Json::Object(vec![
        ("lawful", true.into()),
        ("distance", totals.distance.into()),
        ("vehicles", totals.vehicles.into()),
        ("served", totals.served.into()),
        ("left_out", left_out.into()),
    ]);
    Ok(Answer::told(report, json).warned(plan.warning))
}
