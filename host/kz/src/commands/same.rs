//! `kz same`: whether two plans have the same rounds.

use crate::answer::{Answer, Failure};
use crate::arguments::Call;
use crate::catalogue::{Command, Operand, DAY, PLAN};
use crate::inputs::{self, GivenPlan};
use crate::json::Json;
use crate::refusals;

const SECOND: Operand = Operand {
    name: "SECOND",
    about: "another plan of the same day, in either form",
    optional: false,
    file: true,
};

pub const COMMAND: Command = Command {
    name: "same",
    summary: "tell whether two plans have the same rounds",
    operands: &[DAY, PLAN, SECOND],
    options: &[],
    about: &[
        "Rounds are the same where the vehicles, in order, visit the same stops in order. Tips and \
         rests do not count. Both answers have exit status 0.",
        "Both plans have to be lawful. The first is judged before the second. In JSON the \
         places of the second count on from the first's length.",
    ],
    run,
};

fn run(call: &Call) -> Result<Answer, Failure> {
    let day = inputs::day(call)?;
    let (first, second) = (inputs::plan(call, 1, &day)?, inputs::plan(call, 2, &day)?);
    let plans = [&first, &second];
    let same = kazhuvendi::same_rounds(&day.words, &first.words, &second.words)
        .map_err(|refusal| refusals::of_plans(refusal, &day, &plans))?;
    let report = if same { "the same rounds\n" } else { "different rounds\n" };
    let answer = Answer::told(report.to_string(), Json::Object(vec![("same", same.into())]));
    Ok(answer.warned(GivenPlan::warning_of(&plans)))
}
