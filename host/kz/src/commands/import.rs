//! `kz import`: a Solomon instance as a day file.

use crate::answer::{Answer, Failure, Product};
use crate::arguments::Call;
use crate::catalogue::{Command, Operand, HEX, OUTPUT};
use crate::inputs;
use crate::json::Json;

const INSTANCE: Operand = Operand {
    name: "INSTANCE",
    about: "a Solomon instance, a text of the public form; - is standard input",
    optional: false,
    file: true,
};

pub const COMMAND: Command = Command {
    name: "import",
    summary: "write a Solomon instance as the words of a day file",
    operands: &[INSTANCE],
    options: &[&OUTPUT, &HEX],
    about: &[
        "An instance has a name line, VEHICLE with the capacity, and CUSTOMER with a line for the \
         depot and each customer: its number, x and y coordinate, demand, ready time, due date and \
         service time. FORMAT.md describes the form.",
        "A customer becomes the stop of its number. One tip stands at the depot. The minutes of a \
         leg are the straight line between its places, and its distance is ten times that, both \
         rounded down.",
        "What is wrong in a text is refused by number 17, where it is not of this form, or 18, where \
         a number is outside its limits. The refusal names the byte, line and column, and the exit \
         status is 1.",
        "Every command that takes a DAY takes an instance as well, so `kz plan` plans it directly.",
    ],
    run,
};

fn run(call: &Call) -> Result<Answer, Failure> {
    let day = inputs::instance(call)?;
    let (stops, words) = (day.stops, day.words.len());
    let report =
        format!("imported: {}: stops {stops}, tips {}, words {words}\n", day.label(), day.tips);
    let json = Json::Object(vec![
        ("stop_count", stops.into()),
        ("tip_count", day.tips.into()),
        ("day", Json::words(&day.words)),
    ]);
    Ok(Answer::made(report, json, Product::Words(day.words)))
}
