//! `kz pack`: a day in text as a day file.

use crate::answer::{Answer, Failure, Product};
use crate::arguments::Call;
use crate::catalogue::{Command, DAY, HEX, OUTPUT};
use crate::inputs;
use crate::json::Json;

pub const COMMAND: Command = Command {
    name: "pack",
    summary: "write a day in text form as the words of a day file",
    operands: &[DAY],
    options: &[&OUTPUT, &HEX],
    about: &[
        "FORMAT.md describes the text form. What is wrong in a text is named with its line and \
         column, and the exit status is then 2. The words have no names; a plan of the packed day \
         is a plan of the text as well, so `kz show` and `kz chart` can be given the text.",
        "A day that is already words is accepted too, and written in the form asked for.",
    ],
    run,
};

fn run(call: &Call) -> Result<Answer, Failure> {
    let day = inputs::day(call)?;
    let (stops, words) = (day.stops, day.words.len());
    let report = format!("packed: stops {stops}, tips {}, words {words}\n", day.tips);
    let json = Json::Object(vec![
        ("stop_count", stops.into()),
        ("tip_count", day.tips.into()),
        ("day", Json::words(&day.words)),
    ]);
    Ok(Answer::made(report, json, Product::Words(day.words)))
}
