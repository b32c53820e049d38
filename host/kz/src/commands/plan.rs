//! `kz plan`: a plan with trials.

use crate::answer::{Answer, Failure, Product};
use crate::arguments::Call;
use crate::catalogue::{Command, Flag, DAY, HEX, OUTPUT};
use crate::inputs;
use crate::json::Json;
use crate::made_for::MadeFor;
use crate::neighbours::{Neighbours, GROWING, USUAL};
use crate::planning::{self, Outcome, Step, SETTLE};
use crate::plans;
use crate::progress::Progress;

const NEIGHBOURS: Flag = Flag {
    name: "--k",
    letter: None,
    value: Some("K"),
    about:
        "try each stop beside its K nearest stops, 1 to 50; 5-50: beside 5, then 10, 25 and 50; \
            without --k both 5-50 and 50",
};

const TRIALS: Flag = Flag {
    name: "--trials",
    letter: None,
    value: Some("N"),
    about: "stop after N trials, though more might still make the plan shorter",
};

const SETTLED: Flag = Flag {
    name: "--settle",
    letter: None,
    value: None,
    about: "go on until no trial makes the plan shorter; this is what is done without --trials",
};

const SHOWN: Flag = Flag {
    name: "--progress",
    letter: None,
    value: None,
    about: "show progress also where standard error is no terminal",
};

pub const COMMAND: Command = Command {
    name: "plan",
    summary: "plan a day: the greedy plan, made shorter by trials",
    operands: &[DAY],
    options: &[&NEIGHBOURS, &TRIALS, &SETTLED, &OUTPUT, &HEX, &SHOWN],
    about: &[
        "A trial moves a stop beside another one of the same vehicle, lets two stops of different \
         vehicles change places, or takes out or changes a tip. It is kept where the plan is then \
         lawful and shorter. A plan is settled when no trial would be kept.",
        "K says how many nearest stops each stop is tried beside: those with the shortest drive \
         from it, of all whose windows let a vehicle go on to them. A larger K means more trials, \
         most often a shorter plan, and more time. With K 5-50 the set grows: planning begins with \
         5; where no trial is kept it goes on to 10, 25 and 50, and from each trial that is kept \
         back to 5.",
        "Without --k the day is planned both with K 5-50 and with K 50, and the shorter plan is \
         kept: neither is the better one on every day. The answer says which it is, and what the \
         other way came to. A day of 60 stops settles both ways within a tenth of a second, one of \
         240 within a few seconds.",
        "--trials is for a plan that is wanted sooner: planning ends after N trials at the latest, \
         of each way where there are two. The plan is lawful, and never longer than with a smaller \
         N. It is called `not settled` where more trials might still make it shorter.",
        "Planning goes in steps: first the greedy plan, then with a budget of trials that doubles \
         from step to step, each time from the beginning. On a terminal standard error shows K, \
         the trials made, the shortest distance so far, how far it is below the greedy plan's, and \
         how many steps gave a shorter plan.",
        "It can be interrupted at any time (Ctrl-C): the best plan so far is then written, this is \
         said, and the exit status is 0. That is sound because the plan of every budget is lawful \
         and never longer than the plan of a smaller budget: this is proved. So the plan of the \
         last step that was finished is as good a plan as if its budget had been asked for, and an \
         interrupt cuts off only trials that were still to be made.",
        "The words go to FILE, or to standard output, where a terminal gets them in hexadecimal. \
         What the plan comes to is said on standard output, or on standard error where the words \
         are there.",
    ],
    run,
};

fn run(call: &Call) -> Result<Answer, Failure> {
    let ways = ways(call)?;
    let trials = call.number(&TRIALS)?;
    if trials.is_some() && call.has(&SETTLED) {
        return Err(call.wrong("--trials and --settle exclude each other".into()));
    }
    let day = inputs::day(call)?;
    let progress = Progress::of(call.has(&SHOWN));
    let outcome = planning::run(&day, &ways, trials.unwrap_or(SETTLE), |way, outcome| {
        progress.show(way, outcome);
    });
    progress.end();
    let outcome = outcome?;
    let (report, json) = (report(day.label(), &outcome), json(&outcome));
    let words = outcome.best().words.clone();
    Ok(Answer::made(report, json, Product::Plan(words, MadeFor::of(&day))))
}

/// The ways that are asked for.
fn ways(call: &Call) -> Result<Vec<Neighbours>, Failure> {
    let Some(value) = call.value(&NEIGHBOURS) else { return Ok(USUAL.to_vec()) };
    if value == GROWING {
        return Ok(vec![Neighbours::Growing]);
    }
    let k = value.to_str().and_then(|text| text.parse().ok()).ok_or_else(|| {
        let value = value.display();
        call.wrong(format!("--k has to be a whole number or {GROWING}, not '{value}'"))
    })?;
    Ok(vec![Neighbours::Fixed(k)])
}

fn report(day: &str, outcome: &Outcome) -> String {
    let best = outcome.best();
    let ended = if outcome.interrupted {
        "interrupted, and this is the best plan so far"
    } else {
        ended(best)
    };
    format!(
        "planned: {day}: distance {} (greedy {}), vehicles {}, stops left out {}, words {}; \
         {}, {} trials, {ended}{}\n",
        best.planned.distance,
        outcome.greedy,
        plans::vehicles(&best.words),
        best.planned.left_out,
        best.planned.words,
        best.neighbours,
        best.planned.trials,
        outcome.others().map(other).collect::<String>(),
    )
}

fn ended(step: &Step) -> &'static str {
    if step.planned.settled {
        "settled"
    } else {
        "not settled"
    }
}

/// What another way came to.
fn other(step: &Step) -> String {
    let (planned, ended) = (step.planned, ended(step));
    format!(
        "; {}: distance {}, {} trials, {ended}",
        step.neighbours, planned.distance, planned.trials
    )
}

fn json(outcome: &Outcome) -> Json {
    let best = outcome.best();
    Json::Object(vec![
        ("distance", best.planned.distance.into()),
        ("greedy_distance", outcome.greedy.into()),
        ("k", best.neighbours.json()),
        ("trials", best.planned.trials.into()),
        ("settled", best.planned.settled.into()),
        ("interrupted", outcome.interrupted.into()),
        ("vehicles", plans::vehicles(&best.words).into()),
        ("left_out", best.planned.left_out.into()),
        ("others", Json::List(outcome.others().map(other_json).collect())),
        ("plan", Json::words(&best.words)),
    ])
}

fn other_json(step: &Step) -> Json {
    Json::Object(vec![
        ("k", step.neighbours.json()),
        ("distance", step.planned.distance.into()),
        ("trials", step.planned.trials.into()),
        ("settled", step.planned.settled.into()),
    ])
}
