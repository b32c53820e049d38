//! A planning that is interrupted keeps the best plan so far. A writing that is interrupted leaves
//! a whole file or none.

use std::fs;
use std::io::{BufRead, BufReader, Read};
use std::os::unix::process::ExitStatusExt;
use std::path::Path;
use std::process::{Child, Command, Stdio};
use std::thread::sleep;
use std::time::{Duration, Instant};

use reference::bytes;
use reference::random::Random;
use reference::trial_days::day_of_few_long_rounds;

use crate::json::Json;
use crate::run::{command, kz};
use crate::scratch::{self, Scratch};

const STOPS: usize = 240;
const SIGTERM: i32 = 15;
const SIGXFSZ: i32 = 25;

/// Begins to plan a day that takes seconds, and interrupts it after its third step.
fn interrupt(scratch: &Scratch, signal: &str, output: &[&str]) -> Child {
    let words = day_of_few_long_rounds(&mut Random::new(1), STOPS, 15).words();
    let day = scratch.words("day", &words);
    let call = [&["plan", &day, "--k", "50", "--progress"], output].concat();
    let mut child = command(&call).stdin(Stdio::null()).spawn().expect("it starts");
    let mut progress = BufReader::new(child.stderr.take().expect("it is a pipe"));
    for _ in 0..3 {
        progress.read_line(&mut String::new()).expect("a step is shown");
    }
    send(signal, &child);
    let asked = Instant::now();
    std::io::copy(&mut progress, &mut std::io::sink()).expect("standard error is read");
    assert!(asked.elapsed() < Duration::from_secs(2), "the answer takes {:?}", asked.elapsed());
    child
}

fn send(signal: &str, child: &Child) {
    let kill = ["-c", "kill \"$0\" \"$1\"", signal, &child.id().to_string()];
    assert!(Command::new("bash").args(kill).status().expect("bash is there").success());
}

fn ended(mut child: Child) -> String {
    let mut said = String::new();
    child.stdout.take().expect("a pipe").read_to_string(&mut said).expect("it is text");
    assert_eq!(child.wait().expect("it ends").code(), Some(0), "{said}");
    said
}

#[test]
fn the_best_plan_so_far_is_written_and_lawful() {
    for signal in ["-INT", "-TERM"] {
        let scratch = Scratch::new();
        let output = scratch.name("plan");
        let said = ended(interrupt(&scratch, signal, &["-o", &output]));
        assert!(said.contains("interrupted, and this is the best plan so far"), "{said}");
        let checked = kz(&["check", &scratch.name("day"), &output]);
        let behind = said.split(": distance ").nth(1).expect("the distance is said");
        let distance = behind.split(' ').next().expect("a number");
        assert!(checked.answer().contains(&format!("distance {distance},")), "{said}");
        assert_eq!(scratch.files(), ["day", "plan", "plan.made-for"]);
    }
}

#[test]
fn the_plan_is_that_of_the_trials_that_were_made() {
    let scratch = Scratch::new();
    let output = scratch.name("plan");
    let said = ended(interrupt(&scratch, "-INT", &["--json", "-o", &output]));
    let answer = Json::read(said.trim_end());
    assert_eq!(answer.at("interrupted"), &Json::Truth(true));
    assert_eq!(answer.at("settled"), &Json::Truth(false));
    let trials = answer.at("trials").number().to_string();
    let again = kz(&["plan", &scratch.name("day"), "--k", "50", "--trials", &trials]);
    let plan = fs::read(&output).expect("the plan is there");
    assert_eq!(again.out, plan);
    let lines: Vec<u32> = answer.at("plan").list().iter().map(word).collect();
    assert_eq!(bytes::write(&lines), plan);
}

fn word(line: &Json) -> u32 {
    u32::from_str_radix(line.text(), 16).expect("a word has eight digits")
}

/// Packs a day of 240 stops into a scratch folder that has only the day.
fn pack(scratch: &Scratch) -> Command {
    let words = day_of_few_long_rounds(&mut Random::new(1), STOPS, 15).words();
    let day = scratch.words("day", &words);
    command(&["pack", &day, "-o", &scratch.name("packed"), "--hex"])
}

/// Signals come at any time of a run; the last part of it is the writing.
#[test]
fn an_interrupted_writing_leaves_the_whole_file_or_none() {
    let scratch = Scratch::new();
    let mut pack = pack(&scratch);
    let begun = Instant::now();
    assert!(pack.status().expect("it starts").success());
    let (long, packed) = (begun.elapsed(), scratch.name("packed"));
    let whole = fs::read(&packed).expect("it is written");
    for turn in 0..40 {
        fs::remove_file(&packed).ok();
        let mut child = pack.spawn().expect("it starts");
        sleep(long * (turn / 2) / 20);
        send(["-INT", "-TERM"][turn as usize % 2], &child);
        child.wait().expect("it ends");
        let files = scratch.files();
        assert!(files == ["day", "packed"] || files == ["day"], "{files:?}");
        assert!(files.len() == 1 || fs::read(&packed).expect("it is there") == whole, "it is cut");
    }
}

/// A limit on the size of files has a signal end the program in the midst of the writing, without
/// time to remove anything.
#[test]
fn a_program_that_is_ended_while_it_writes_leaves_nothing() {
    let scratch = Scratch::new();
    let pack = pack(&scratch);
    if kz::unnamed::create(Path::new(&scratch.name("."))).is_err() {
        println!("this file system has no files without a name: one is left where kz is killed");
        return;
    }
    for before in [&["day"][..], &["day", "packed"]] {
        let mut bash = Command::new("bash");
        bash.args(["-c", "ulimit -c 0 -f 1 && exec \"$0\" \"$@\"", env!("CARGO_BIN_EXE_kz")]);
        let status = bash.args(pack.get_args()).status().expect("bash is there");
        assert_eq!(status.signal(), Some(SIGXFSZ));
        assert_eq!(scratch.files(), before);
        scratch.file("packed", b"before");
    }
    assert_eq!(fs::read(scratch.name("packed")).expect("it is there"), b"before");
}

/// Nobody reads the pipe, so that writing to it never begins.
#[test]
fn an_interrupt_ends_the_wait_for_the_reader_of_a_pipe() {
    let scratch = Scratch::new();
    let pipe = scratch.name("pipe");
    assert!(Command::new("mkfifo").arg(&pipe).status().expect("mkfifo is there").success());
    for arguments in [["build", scratch::DAY_M, "-o", &pipe], ["plan", scratch::DAY_M, "-o", &pipe]]
    {
        let mut child = command(&arguments).spawn().expect("it starts");
        let begun = Instant::now();
        // The first signal may come while the day is still being planned, and is then noted.
        while begun.elapsed() < Duration::from_secs(3) && matches!(child.try_wait(), Ok(None)) {
            sleep(Duration::from_millis(200));
            send("-TERM", &child);
        }
        child.kill().ok();
        let status = child.wait().expect("it ends");
        assert_eq!(status.signal(), Some(SIGTERM), "{arguments:?}");
    }
    assert_eq!(scratch.files(), ["pipe"]);
}
