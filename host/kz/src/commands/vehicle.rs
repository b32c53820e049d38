//! `kz vehicle`: one vehicle of a plan.

use crate::answer::{Answer, Failure, Product};
use crate::arguments::Call;
use crate::catalogue::{Command, Operand, DAY, HEX, OUTPUT, PLAN};
use crate::day::Day;
use crate::inputs;
use crate::json::Json;
use crate::refusals;
use crate::sheet::Sheet;
use crate::sheet_json;
use crate::table;

const NUMBER: Operand =
    Operand { name: "N", about: "the vehicle, counted from 1", optional: false, file: false };

pub const COMMAND: Command = Command {
    name: "vehicle",
    summary: "show what one vehicle of a plan does, or hand out its words",
    operands: &[DAY, PLAN, NUMBER],
    options: &[&OUTPUT, &HEX],
    about: &[
        "Without an option it prints the vehicle's sheet: each word with its earliest minutes, the \
         load behind it and the distance so far. With --hex, or with -o, it hands out the \
         vehicle's words from A to E, as they stand in the plan.",
        "The plan has to be lawful. A vehicle that it does not have is refused by number 15, and \
         the exit status is 1.",
    ],
    run,
};

fn run(call: &Call) -> Result<Answer, Failure> {
    let number = call.number_operand(2)?;
    let given = inputs::day(call)?;
    let plan = inputs::plan(call, 1, &given)?;
    let place = kazhuvendi::vehicle_place(&given.words, &plan.words, number)
        .map_err(|refusal| refusals::of_plans(refusal, &given, &[&plan]))?;
    let (day, number) = (Day::of(&given.words), number as usize);
    let sheet = Sheet::of(&day, &plan.words);
    let words = &plan.words[place.clone()];
    let json = Json::Object(vec![
        ("vehicle", number.into()),
        ("place", place.start.into()),
        ("words", Json::words(words)),
        ("sheet", sheet_json::round(&sheet.rounds[number - 1], &given.names)),
    ]);
    if call.has(&HEX) || call.has(&OUTPUT) {
        let report =
            format!("vehicle {number}: {} words, from word {}\n", place.len(), place.start);
        let product = Product::Words(words.to_vec());
        return Ok(Answer::made(report, json, product).warned(plan.warning));
    }
    let table = table::vehicle_table(&day, &given.names, &sheet, number);
    Ok(Answer::told(table, json).warned(plan.warning))
}
