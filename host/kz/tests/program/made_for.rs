//! The day that a plan was made for: noted beside the plan, and a warning where it is another.

use std::fs;
use std::os::unix::fs::symlink;
use std::path::Path;
use std::process::Command;

use reference::bytes;
use reference::worked::with_words;
use reference::worked_plans::PLAN_M as PLAN_WORDS;

use crate::page::read;
use crate::run::{kz, kz_fed};
use crate::scratch::{Scratch, DAY_M, PLAN_M};

/// Day M in text as a file, with its stops as they are or sorted anew.
fn text(scratch: &Scratch, sorted_anew: bool) -> String {
    let mut stops = [("Baker", 60), ("Grocer", 50)];
    if sorted_anew {
        stops.reverse();
    }
    let lines = stops.map(|(name, kg)| format!("stop {name} 00:00-00:50 5 min {kg} kg")).join("\n");
    let [(first, _), (second, _)] = stops;
    let text = format!(
        "day \"Day M\"\nload 100 kg\nload-a-day 200 kg\nstops-a-day 5\ndepot 00:00-01:40\n\
         rest 00:30-01:00 10 min\ntip yard 00:00-01:40 5 min\n{lines}\nlegs by matrix\n\
         depot - 10/7 10/7 10/7\nyard 10/7 - 10/7 10/7\n\
         {first} 10/7 10/7 - 10/7\n{second} 10/7 10/7 10/7 -\n"
    );
    scratch.file(if sorted_anew { "sorted.txt" } else { "day.txt" }, text.as_bytes())
}

/// The plan of day M as a file with its note.
fn noted_plan(scratch: &Scratch) -> String {
    let plan = scratch.name("m.plan");
    kz(&["plan", &text(scratch, false), "-o", &plan]).answer();
    plan
}

fn warning(plan: &str) -> String {
    format!(
        "{plan} was made for another day, or before this one was changed, so its stops may be \
         other customers now: plan this day again, or give the day that it was made for (Day M)"
    )
}

/// The fingerprint that docs/FORMAT.md gives for day M.
fn fingerprint() -> String {
    let page = read("docs/FORMAT.md");
    let behind = page.split("fingerprint of day M is `").nth(1).expect("it is given");
    behind.split('`').next().expect("it ends").to_string()
}

#[test]
fn a_plan_in_a_file_has_the_fingerprint_and_the_name_of_its_day_beside_it() {
    let scratch = Scratch::new();
    let day = text(&scratch, false);
    for (command, form) in [("plan", None), ("build", Some("--hex"))] {
        let plan = scratch.name(command);
        kz(&[&[command, &day, "-o", &plan], form.as_slice()].concat()).answer();
        let note = fs::read_to_string(format!("{plan}.made-for")).expect("it is there");
        assert_eq!(note, format!("{} Day M\n", fingerprint()));
    }
    assert_eq!(fs::read(scratch.name("plan")).expect("a plan"), bytes::write(&PLAN_WORDS));
    assert_eq!(fs::read_to_string(scratch.name("build")).expect("lines").lines().count(), 7);
    let unnamed = scratch.name("unnamed");
    kz(&["build", DAY_M, "-o", &unnamed]).answer();
    let note = fs::read_to_string(format!("{unnamed}.made-for")).expect("it is there");
    assert_eq!(note, format!("{} {DAY_M}\n", fingerprint()));
}

#[test]
fn every_command_warns_where_the_lines_of_the_day_were_sorted_anew() {
    let scratch = Scratch::new();
    let (plan, sorted) = (noted_plan(&scratch), text(&scratch, true));
    for call in [
        &["check", &sorted, &plan][..],
        &["show", &sorted, &plan],
        &["chart", &sorted, &plan, "-o", "/dev/null"],
        &["vehicle", &sorted, &plan, "1"],
        &["vehicle", &sorted, &plan, "1", "-o", "/dev/null"],
        &["same", &sorted, PLAN_M, &plan],
    ] {
        let ran = kz(call);
        assert_eq!((ran.status, ran.err), (0, format!("kz: warning: {}\n", warning(&plan))));
        assert!(!ran.out.is_empty(), "{call:?}");
        let json = kz(&[call, &["--json"]].concat());
        assert_eq!((json.status, json.err.as_str()), (0, ""));
        assert_eq!(json.json().at("warning").text(), warning(&plan));
    }
}

#[test]
fn a_refusal_has_the_warning_too() {
    let scratch = Scratch::new();
    let plan = noted_plan(&scratch);
    let day = scratch.words("day", &with_words(&[(4, 0x5000_004F)]));
    let sentence = "vehicle 1 is back at 01:20, and the depot closes at 01:19";
    let refused = format!("kz: {sentence} (refusal 11, word 6 of {plan})\n");
    let ran = kz(&["check", &day, &plan]);
    let said = format!("kz: warning: {}\n{refused}", warning(&plan));
    assert_eq!((ran.status, ran.out.len(), ran.err), (1, 0, said));
    let json = kz(&["check", &day, &plan, "--json"]).json();
    assert_eq!(json.at("refused").at("sentence").text(), sentence);
    assert_eq!(json.at("warning").text(), warning(&plan));
}

#[test]
fn two_plans_of_another_day_have_a_warning_each() {
    let scratch = Scratch::new();
    let (plan, sorted) = (noted_plan(&scratch), text(&scratch, true));
    let ran = kz(&["same", &sorted, &plan, &plan]);
    let both = format!("kz: warning: {}; {}\n", warning(&plan), warning(&plan));
    assert_eq!((ran.status, ran.err), (0, both));
}

#[track_caller]
fn no_warning(call: &[&str]) {
    let ran = kz(call);
    assert_eq!((ran.status, ran.err.as_str()), (0, ""), "{ran:?}");
}

#[test]
fn the_same_day_in_any_form_gives_no_warning() {
    let scratch = Scratch::new();
    let plan = noted_plan(&scratch);
    let renamed = fs::read_to_string(scratch.name("day.txt")).expect("the day is there");
    let renamed = renamed.replace("Baker", "Caf\u{e9}").replace("\"Day M\"", "Tuesday");
    for day in [DAY_M, &scratch.name("day.txt"), &scratch.file("named.txt", renamed.as_bytes())] {
        no_warning(&["check", day, &plan]);
    }
}

#[test]
fn a_plan_without_a_note_or_with_a_damaged_one_gives_no_warning() {
    let scratch = Scratch::new();
    let (plan, sorted) = (noted_plan(&scratch), text(&scratch, true));
    no_warning(&["check", &sorted, PLAN_M]);
    let fed = kz_fed(&["check", &sorted, "-"], &bytes::write(&PLAN_WORDS));
    assert_eq!((fed.status, fed.err.as_str()), (0, ""));
    for note in [&b""[..], b"\n", b"Day M\n", b"\xff\xfe", b"0123 ", b"+123456789ABCDEF Day M\n"] {
        scratch.file("m.plan.made-for", note);
        no_warning(&["check", &sorted, &plan]);
    }
    fs::remove_file(format!("{plan}.made-for")).expect("it was there");
    no_warning(&["check", &sorted, &plan]);
}

#[test]
fn a_name_with_control_characters_is_shown_without_them() {
    let scratch = Scratch::new();
    let (plan, sorted) = (noted_plan(&scratch), text(&scratch, true));
    scratch.file("m.plan.made-for", b"0123456789ABCDEF Day\x1bM\n");
    let ran = kz(&["check", &sorted, &plan]);
    assert_eq!(ran.err, format!("kz: warning: {}\n", warning(&plan)));
}

#[test]
fn a_pipe_in_the_place_of_a_note_is_not_waited_for() {
    let scratch = Scratch::new();
    let (plan, sorted) = (noted_plan(&scratch), text(&scratch, true));
    let note = format!("{plan}.made-for");
    fs::remove_file(&note).expect("it was there");
    let made = Command::new("mkfifo").arg(&note).status().expect("mkfifo is there");
    assert!(made.success());
    no_warning(&["check", &sorted, &plan]);
    kz(&["build", &sorted, "-o", &plan]).answer();
    assert!(fs::metadata(&note).expect("it is there").is_file());
}

#[test]
fn a_plan_that_is_made_again_has_the_note_of_its_new_day() {
    let scratch = Scratch::new();
    let (plan, sorted) = (noted_plan(&scratch), text(&scratch, true));
    kz(&["build", &sorted, "-o", &plan]).answer();
    no_warning(&["check", &sorted, &plan]);
    let ran = kz(&["check", DAY_M, &plan]);
    assert_eq!(ran.err, format!("kz: warning: {}\n", warning(&plan)));
}

#[test]
fn the_note_is_found_through_a_link() {
    let scratch = Scratch::new();
    let (plan, sorted) = (scratch.file("m.plan", b""), text(&scratch, true));
    let link = scratch.name("link");
    symlink(&plan, &link).expect("a link is made");
    kz(&["plan", &text(&scratch, false), "-o", &link]).answer();
    for name in [&plan, &link] {
        let ran = kz(&["check", &sorted, name]);
        assert_eq!(ran.err, format!("kz: warning: {}\n", warning(name)));
    }
    assert_eq!(scratch.files(), ["day.txt", "link", "m.plan", "m.plan.made-for", "sorted.txt"]);
}

#[test]
fn a_note_that_cannot_be_written_is_a_fault() {
    let scratch = Scratch::new();
    let (plan, note) = (scratch.name("m.plan"), scratch.name("m.plan.made-for"));
    fs::create_dir(&note).expect("a folder is made");
    let ran = kz(&["build", DAY_M, "-o", &plan]);
    let folder = fs::canonicalize(&note).expect("it is there");
    assert!(ran.failure(2).starts_with(&format!("kz: {} can't be written: ", folder.display())));
    assert_eq!(fs::read(&plan).expect("the plan is there"), bytes::write(&PLAN_WORDS));
}

#[test]
fn there_is_no_note_beside_a_device_a_pipe_or_what_is_no_plan() {
    let scratch = Scratch::new();
    kz(&["build", DAY_M, "-o", "/dev/null"]).answer();
    assert!(!Path::new("/dev/null.made-for").exists());
    assert_eq!(kz(&["build", DAY_M]).out, bytes::write(&PLAN_WORDS));
    let output = scratch.name("output");
    for call in [
        &["pack", DAY_M][..],
        &["unpack", DAY_M],
        &["vehicle", DAY_M, PLAN_M, "1"],
        &["chart", DAY_M, PLAN_M],
    ] {
        kz(&[call, &["-o", &output]].concat()).answer();
    }
    assert_eq!(scratch.files(), ["output"]);
}
