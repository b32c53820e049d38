//! `kz demo`: a sample depot's day from beginning to end.

use crate::answer::{Answer, Failure, Product};
use crate::arguments::Call;
use crate::catalogue::{Command, OUTPUT};
use crate::chart;
use crate::clock::grouped;
use crate::day::Day;
use crate::depot;
use crate::inputs::{GivenDay, Named};
use crate::json::Json;
use crate::neighbours::USUAL;
use crate::planning::{self, Outcome, SETTLE};
use crate::sheet::Sheet;
use crate::sheet_json;
use crate::table;

pub const COMMAND: Command = Command {
    name: "demo",
    summary: "plan a sample depot's day and show what comes of it",
    operands: &[],
    options: &[&OUTPUT],
    about: &[
        "The day is made up, and within the program: 60 stops of a small town, 3 tips and a lunch. \
         It is planned as `kz plan` does it without options. Printed are the distances of the \
         greedy and the settled plan, and the sheet of vehicle 1; the chart of the settled plan \
         goes to FILE where -o is given.",
    ],
    run,
};

fn run(call: &Call) -> Result<Answer, Failure> {
    let sample = depot::sample();
    let file = Named { name: "the sample day".into(), bytes: vec![] };
    let given = GivenDay::of(sample.words, Some(sample.names), &file)?;
    let outcome = planning::run(&given, USUAL, SETTLE, |_, _| {})?;
    let best = outcome.best();
    let day = Day::of(&given.words);
    let sheet = Sheet::of(&day, &best.words);
    let product = call.has(&OUTPUT).then(|| Product::Text(chart::svg(&day, &given.names, &sheet)));
    let vehicle = table::vehicle_table(&day, &given.names, &sheet, 1);
    let report = format!("{}\n{vehicle}{}", distances(&given, &outcome), chart_place(call));
    let json = Json::Object(vec![
        ("stop_count", given.stops.into()),
        ("tip_count", given.tips.into()),
        ("greedy_distance", outcome.greedy.into()),
        ("distance", best.planned.distance.into()),
        ("k", best.neighbours.json()),
        ("trials", best.planned.trials.into()),
        ("settled", best.planned.settled.into()),
        ("plan", Json::words(&best.words)),
        ("sheet", sheet_json::round(&sheet.rounds[0], &given.names)),
    ]);
    Ok(Answer { product, ..Answer::told(report, json) })
}

fn distances(given: &GivenDay, outcome: &Outcome) -> String {
    let (planned, way) = (outcome.best().planned, outcome.best().neighbours);
    let ended = if planned.settled { "settled plan:" } else { "best so far: " };
    format!(
        "{}: {} stops, {} tips\ngreedy plan:  distance {}\n{ended} distance {}, {way}, {} trials\n",
        given.names.day(),
        given.stops,
        given.tips,
        grouped(outcome.greedy),
        grouped(planned.distance),
        grouped(planned.trials),
    )
}

fn chart_place(call: &Call) -> String {
    let file = call.value(&OUTPUT).filter(|name| *name != "-");
    file.map_or(String::new(), |name| format!("\nThe chart is in {}.\n", name.display()))
}
