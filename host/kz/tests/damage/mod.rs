//! Days and plans that are damaged at random, through every command that reads them. Whatever the
//! damage, there is an answer, or a failure with its exit status.

mod bytes;
#[allow(dead_code)]
#[path = "../program/json.rs"]
mod json;
mod samples;

use std::ffi::OsString;
use std::fmt::{self, Display, Formatter};
use std::fs;
use std::panic::{catch_unwind, resume_unwind};
use std::path::{Path, PathBuf};

use kz::answer::{Answer, Failure};
use kz::arguments::{self, Request};
use kz::catalogue::{Command, Operand};
use kz::commands::COMMANDS;
use reference::random::Random;

use json::Json;
use samples::Sample;

/// What is damaged.
#[derive(Clone, Copy, Debug, PartialEq, Eq)]
pub enum Kind {
    /// A day in text, or a Solomon instance.
    Text,
    /// The words of a day, as raw bytes or hexadecimal lines.
    DayFile,
    /// The words of a plan, in either form.
    Plan,
}

/// How often calls ended with which exit status.
#[derive(Default)]
pub struct Tally {
    statuses: [usize; 3],
}

impl Tally {
    /// How many calls of a hundred had this exit status.
    pub fn percent(&self, status: usize) -> usize {
        100 * self.statuses[status] / self.statuses.iter().sum::<usize>().max(1)
    }
}

impl Display for Tally {
    fn fmt(&self, formatter: &mut Formatter) -> fmt::Result {
        let [answered, refused, unreadable] = [0, 1, 2].map(|status| self.percent(status));
        write!(
            formatter,
            "{} calls: {answered} % answered, {refused} % refused, {unreadable} % not readable",
            self.statuses.iter().sum::<usize>()
        )
    }
}

/// The files that a call is given.
struct Files<'a> {
    day: &'a Path,
    plan: &'a Path,
    second: &'a Path,
}

/// Damages files, and gives them to the commands.
pub struct Bench {
    random: Random,
    samples: Vec<Sample>,
    damaged: PathBuf,
    /// How the calls so far ended.
    pub tally: Tally,
}

impl Bench {
    /// A bench that has its files in this folder.
    pub fn new(folder: &Path, seed: u64) -> Bench {
        fs::create_dir_all(folder).expect("there is room for scratch files");
        let (samples, damaged) = (samples::write(folder), folder.join("damaged"));
        Bench { random: Random::new(seed), samples, damaged, tally: Tally::default() }
    }

    /// Damages one file, gives it to every command that reads such a file, and hands back one of
    /// these calls.
    pub fn turn(&mut self, kind: Kind) -> Vec<OsString> {
        let random = &mut self.random;
        let sample = samples::choose(random, &self.samples);
        let content = sample.damaged(random, kind);
        // A file that is cut and written again goes to the disk at once, which takes milliseconds; a
        // new one does not.
        fs::remove_file(&self.damaged).ok();
        fs::write(&self.damaged, &content).expect("a scratch file is written");
        let (day, plan) = (sample.day(random), sample.plan(random));
        let files = match kind {
            Kind::Plan => Files { day, plan: &self.damaged, second: plan },
            _ => Files { day: &self.damaged, plan, second: plan },
        };
        let number = random.one_of(&["1", "2", "0", "77"]);
        let mut calls: Vec<Vec<OsString>> = vec![];
        for command in COMMANDS.iter().filter(|command| reads(command, kind)) {
            calls.extend(calls_of(command, &files, number));
        }
        for call in &calls {
            self.tally.statuses[usize::from(status_of(call, &content))] += 1;
        }
        calls.swap_remove(random.below(calls.len()))
    }
}

fn reads(command: &Command, kind: Kind) -> bool {
    let names: &[&str] = match kind {
        Kind::Plan => &["PLAN"],
        _ => &["DAY", "INSTANCE"],
    };
    command.operands.iter().any(|operand| names.contains(&operand.name))
}

/// The calls of a command: with and without what is optional, and with two plans in either order.
fn calls_of(command: &Command, files: &Files, number: &str) -> Vec<Vec<OsString>> {
    let (all, needed) = (command.operands, &command.operands[..command.needed()]);
    let mut calls = vec![call_of(command, all, files, number)];
    if needed.len() < all.len() {
        calls.push(call_of(command, needed, files, number));
    }
    if all.iter().any(|operand| operand.name == "SECOND") {
        let turned = Files { day: files.day, plan: files.second, second: files.plan };
        calls.push(call_of(command, all, &turned, number));
    }
    calls
}

fn call_of(command: &Command, given: &[Operand], files: &Files, number: &str) -> Vec<OsString> {
    let operand = |operand: &Operand| match operand.name {
        "DAY" | "INSTANCE" => OsString::from(files.day),
        "PLAN" => files.plan.into(),
        "SECOND" => files.second.into(),
        "N" => number.into(),
        other => panic!("kz {} has the operand {other}, which is not known here", command.name),
    };
    let mut call = vec![OsString::from(command.name)];
    call.extend(given.iter().map(operand));
    if command.name == "plan" {
        call.extend(["--trials", "200"].map(OsString::from));
    }
    call
}

/// The exit status of a call. Where it breaks, the file that does it is shown.
fn status_of(call: &[OsString], content: &[u8]) -> u8 {
    catch_unwind(|| tell(run(call))).unwrap_or_else(|broken| {
        eprintln!("kz {call:?} breaks on b\"{}\"", content.escape_ascii());
        resume_unwind(broken)
    })
}

fn run(call: &[OsString]) -> Result<Answer, Failure> {
    let Request::Run(call) = arguments::parse(call)? else { panic!("the call is a command's") };
    (call.command.run)(&call)
}

/// The exit status of an outcome, which can be told to people and to programs.
fn tell(outcome: Result<Answer, Failure>) -> u8 {
    let (status, report, json) = match outcome {
        Ok(answer) => (0, answer.report, answer.json),
        Err(failure) => (failure.status(), failure.report(), failure.json()),
    };
    assert_eq!(status != 0, report.starts_with("kz: "), "{report}");
    assert!(report.ends_with('\n'), "{report}");
    Json::read(&json.to_string());
    status
}
