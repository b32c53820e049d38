//! `kz unpack`: a day file as text.

use crate::answer::{Answer, Failure, Product};
use crate::arguments::Call;
use crate::catalogue::{Command, DAY, OUTPUT};
use crate::inputs;
use crate::json::Json;
use crate::text;

pub const COMMAND: Command = Command {
    name: "unpack",
    summary: "write a day in its text form",
    operands: &[DAY],
    options: &[&OUTPUT],
    about: &[
        "Stops and tips get the names \"stop 1\", \"tip 1\" and so on, since words have none; the \
         legs are written as a matrix. `kz pack` makes the same words of the text again.",
        "A day that is already in text form keeps its names.",
    ],
    run,
};

fn run(call: &Call) -> Result<Answer, Failure> {
    let day = inputs::day(call)?;
    let text = text::write(&day.words, &day.names);
    let json = Json::Object(vec![
        ("stop_count", day.stops.into()),
        ("tip_count", day.tips.into()),
        ("text", text.as_str().into()),
    ]);
    let report = format!("unpacked: stops {}, tips {}\n", day.stops, day.tips);
    Ok(Answer::made(report, json, Product::Text(text)))
}
