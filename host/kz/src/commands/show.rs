//! `kz show`: a day or a plan as tables.

use crate::answer::{Answer, Failure};
use crate::arguments::Call;
use crate::catalogue::{Command, Operand, DAY, PLAN};
use crate::day::Day;
use crate::inputs;
use crate::sheet::Sheet;
use crate::sheet_json;
use crate::table;

pub const COMMAND: Command = Command {
    name: "show",
    summary: "show a day, or a plan of it, as tables",
    operands: &[DAY, Operand { optional: true, ..PLAN }],
    options: &[],
    about: &[
        "Of a day alone it shows limits, windows, tips and stops. Of a lawful plan it shows for \
         each vehicle its words with their earliest minutes, loads and distances, and the stops \
         left out. A vehicle leaves as the depot opens and goes on as soon as it can: where there \
         is any timetable, these minutes are one.",
        "The stops and tips have their names where DAY is in text form, and numbers otherwise.",
    ],
    run,
};

fn run(call: &Call) -> Result<Answer, Failure> {
    let given = inputs::day(call)?;
    let (day, names) = (Day::of(&given.words), &given.names);
    if call.operand(1).is_none() {
        return Ok(Answer::told(table::day_table(&day, names), sheet_json::day(&day, names)));
    }
    let (plan, _) = inputs::lawful_plan(call, 1, &given)?;
    let sheet = Sheet::of(&day, &plan.words);
    let json = sheet_json::plan(&sheet, names);
    Ok(Answer::told(table::plan_table(&day, names, &sheet), json).warned(plan.warning))
}
