//! `kz build`: the greedy plan.

use crate::answer::{Answer, Failure, Product};
use crate::arguments::Call;
use crate::catalogue::{Command, DAY, HEX, OUTPUT};
use crate::inputs;
use crate::json::Json;
use crate::made_for::MadeFor;
use crate::plans;
use crate::refusals;

pub const COMMAND: Command = Command {
    name: "build",
    summary: "write the greedy plan of a day",
    operands: &[DAY],
    options: &[&OUTPUT, &HEX],
    about: &[
        "Each vehicle goes to the nearest stop that fits, and of equally near ones to the one that \
         closes first. The greedy plan is lawful, and leaves out only stops that no fresh vehicle \
         could take first. `kz plan` makes it shorter.",
        "The words go to FILE, or to standard output, where a terminal gets them in hexadecimal. \
         What the plan comes to is said on standard output, or on standard error where the words \
         are there.",
    ],
    run,
};

fn run(call: &Call) -> Result<Answer, Failure> {
    let day = inputs::day(call)?;
    let mut words = vec![0; 5 * day.stops];
    let planned = kazhuvendi::build(&day.words, &mut words)
        .map_err(|refusal| refusals::of_plans(refusal, &day, &[]))?;
    words.truncate(planned.words);
    let vehicles = plans::vehicles(&words);
    let report = format!(
        "built: {}: distance {}, vehicles {vehicles}, stops left out {}, words {}\n",
        day.label(),
        planned.distance,
        planned.left_out,
        planned.words
    );
    let json = Json::Object(vec![
        ("distance", planned.distance.into()),
        ("vehicles", vehicles.into()),
        ("left_out", planned.left_out.into()),
        ("plan", Json::words(&words)),
    ]);
    Ok(Answer::made(report, json, Product::Plan(words, MadeFor::of(&day))))
}
