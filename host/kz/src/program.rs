//! The program from its arguments to its exit status.

use std::ffi::{OsStr, OsString};
use std::io::{self, IsTerminal, Write};

use crate::answer::{warning_line, Answer, Failure, Product};
use crate::arguments::{self, Call, Request};
use crate::catalogue::{HEX, JSON, OUTPUT};
use crate::{help, output, words};

/// Does what the arguments ask for, and gives the exit status.
pub fn run(arguments: &[OsString]) -> u8 {
    let done = arguments::parse(arguments).and_then(serve);
    let Err(failure) = done else { return 0 };
    tell(&failure, arguments::wants_json(arguments))
}

/// Says why there is no answer, and gives the exit status.
fn tell(failure: &Failure, json: bool) -> u8 {
    if !json || matches!(failure, Failure::Unprinted(_) | Failure::NobodyReads) {
        say(&failure.report());
        return failure.status();
    }
    match output::print(format!("{}\n", failure.json()).as_bytes()) {
        Err(unprinted @ Failure::Unprinted(_)) => tell(&unprinted, json),
        _ => failure.status(),
    }
}

fn serve(request: Request) -> Result<(), Failure> {
    match request {
        Request::Run(call) => {
            no_two_outputs(&call)?;
            if let Some(name) = target(&call) {
                output::spare_input(name, call.inputs())?;
            }
            deliver(&call, (call.command.run)(&call)?)
        }
        Request::Help(None) => output::print(help::overall().as_bytes()),
        Request::Help(Some(command)) => output::print(help::of(command).as_bytes()),
        Request::Version => output::print(help::version().as_bytes()),
    }
}

/// Standard output has room for one of the two.
fn no_two_outputs(call: &Call) -> Result<(), Failure> {
    if call.has(&JSON) && call.value(&OUTPUT).is_some_and(|name| name == "-") {
        return Err(call.wrong("--json and -o - both write to standard output".into()));
    }
    Ok(())
}

/// The file that the product goes to, where it does not go to standard output.
fn target(call: &Call) -> Option<&OsStr> {
    call.value(&OUTPUT).filter(|name| *name != "-")
}

/// Writes the product first, so that what is told of it is true.
fn deliver(call: &Call, answer: Answer) -> Result<(), Failure> {
    let target = target(call);
    let json = call.has(&JSON);
    if let (Some(product), Some(name)) = (&answer.product, target) {
        output::write(name, &bytes(product, call.has(&HEX)))?;
        if let Product::Plan(_, made_for) = product {
            made_for.note(name)?;
        }
    }
    if json {
        return output::print(format!("{}\n", answer.json).as_bytes());
    }
    say(&warning_line(answer.warning.as_deref()));
    match &answer.product {
        Some(product) if target.is_none() => {
            let readable = call.has(&HEX) || io::stdout().is_terminal();
            output::print(&bytes(product, readable))?;
            say(&answer.report);
            Ok(())
        }
        _ => output::print(answer.report.as_bytes()),
    }
}

fn bytes(product: &Product, hexadecimal: bool) -> Vec<u8> {
    match product {
        Product::Words(words) | Product::Plan(words, _) if hexadecimal => {
            words::lines(words).into_bytes()
        }
        Product::Words(words) | Product::Plan(words, _) => words::raw(words),
        Product::Text(text) => text.clone().into_bytes(),
    }
}

/// What goes beside the answer: there is nowhere to report that it could not be said.
fn say(text: &str) {
    io::stderr().write_all(text.as_bytes()).ok();
}
