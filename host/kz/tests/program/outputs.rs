//! Files that are written: whole or not at all, and nothing is left beside them.

use std::fs::{self, File};
use std::os::unix::fs::{symlink, FileTypeExt, PermissionsExt};
use std::process::{Command, Stdio};

use reference::bytes;
use reference::worked_plans::{A1, B1, E, PLAN_M};

use crate::run::{command, kz, Ran};
use crate::scratch::{self, Scratch};

const DAY_M: &str = scratch::DAY_M;

#[track_caller]
fn unwritten(arguments: &[&str], what: &str) {
    let ran = kz(arguments);
    assert!(ran.failure(2).contains(&format!("{what} can't be written: ")), "{ran:?}");
}

#[test]
fn a_file_is_written_and_nothing_else() {
    let scratch = Scratch::new();
    let plan = scratch.name("day.plan");
    let ran = kz(&["build", DAY_M, "-o", &plan]);
    let built = "distance 35, vehicles 1, stops left out 0, words 7";
    assert_eq!(ran.answer(), format!("built: {DAY_M}: {built}\n"));
    assert_eq!(ran.err, "");
    assert_eq!(fs::read(&plan).expect("it is there"), bytes::write(&PLAN_M));
    assert_eq!(scratch.files(), ["day.plan", "day.plan.made-for"]);
}

#[test]
fn a_file_that_was_there_is_replaced_and_keeps_its_permissions() {
    let scratch = Scratch::new();
    let plan = scratch.file("day.plan", &[7; 5_000]);
    fs::set_permissions(&plan, fs::Permissions::from_mode(0o640)).expect("they are set");
    kz(&["build", DAY_M, "-o", &plan]).answer();
    assert_eq!(fs::read(&plan).expect("it is there"), bytes::write(&PLAN_M));
    let mode = fs::metadata(&plan).expect("it is there").permissions().mode();
    assert_eq!(mode & 0o777, 0o640);
    assert_eq!(scratch.files(), ["day.plan", "day.plan.made-for"]);
}

#[test]
fn a_link_stays_and_the_file_behind_it_is_replaced() {
    let scratch = Scratch::new();
    let (plan, link) = (scratch.file("day.plan", b"before"), scratch.name("link"));
    symlink(&plan, &link).expect("a link is made");
    kz(&["build", DAY_M, "-o", &link]).answer();
    assert_eq!(fs::read(&plan).expect("it is there"), bytes::write(&PLAN_M));
    assert!(fs::symlink_metadata(&link).expect("it is there").is_symlink());
}

#[test]
fn a_link_to_a_file_that_is_not_there_yet_stays_a_link() {
    let scratch = Scratch::new();
    let (day, first, second) = (scratch.name("day"), scratch.name("a"), scratch.name("b"));
    symlink("day", &second).expect("a link is made");
    symlink(&second, &first).expect("a link to it is made");
    kz(&["pack", DAY_M, "-o", &first]).answer();
    assert_eq!(fs::read(&day).expect("it is there"), fs::read(DAY_M).expect("it is there"));
    for link in [&first, &second] {
        assert!(fs::symlink_metadata(link).expect("it is there").is_symlink());
    }
    assert_eq!(scratch.files(), ["a", "b", "day"]);
}

#[test]
fn links_that_lead_to_each_other_are_no_place_to_write_to() {
    let scratch = Scratch::new();
    let (first, second) = (scratch.name("a"), scratch.name("b"));
    symlink(&first, &second).expect("a link is made");
    symlink(&second, &first).expect("a link is made");
    unwritten(&["build", DAY_M, "-o", &first], &first);
    assert_eq!(scratch.files(), ["a", "b"]);
}

/// What is said where `output` would replace `input`, which is read by these arguments.
#[track_caller]
fn spared(arguments: &[&str], output: &str, input: &str) {
    let said = "which this call reads: give -o another name\n";
    let ran = kz(&[arguments, &["-o", output]].concat());
    assert_eq!(ran.failure(2), format!("kz: -o {output} would replace {input}, {said}"));
}

#[test]
fn what_is_read_is_not_written() {
    let scratch = Scratch::new();
    let day = scratch.file("day", &fs::read(DAY_M).expect("it is there"));
    let plan = scratch.words("plan", &PLAN_M);
    let (link, twin, spelled) = (scratch.name("link"), scratch.name("twin"), scratch.name("./day"));
    symlink(&day, &link).expect("a link is made");
    fs::hard_link(&day, &twin).expect("a second name is given");
    for output in [&day, &link, &twin, &spelled] {
        for command in ["build", "plan", "pack", "unpack"] {
            spared(&[command, &day], output, &day);
        }
        spared(&["chart", &day, &plan], output, &day);
    }
    spared(&["build", &link], &day, &link);
    spared(&["chart", &day, &plan], &plan, &plan);
    spared(&["vehicle", &day, &plan, "1"], &plan, &plan);
    assert_eq!(fs::read(&day).expect("it is there"), fs::read(DAY_M).expect("it is there"));
    assert_eq!(fs::read(&plan).expect("it is there"), bytes::write(&PLAN_M));
}

#[test]
fn what_is_read_from_standard_input_is_not_written() {
    let scratch = Scratch::new();
    let day = scratch.file("day", &fs::read(DAY_M).expect("it is there"));
    let input = File::open(&day).expect("it is there");
    let ran = command(&["unpack", "-", "-o", &day]).stdin(input).output().expect("it starts");
    let said = "would replace the file on standard input, which this call reads";
    assert!(Ran::of(ran).failure(2).contains(said));
    assert_eq!(fs::read(&day).expect("it is there"), fs::read(DAY_M).expect("it is there"));
}

/// A number is no file, though there may be one of that name.
#[test]
fn a_vehicles_number_is_not_taken_for_an_input() {
    let scratch = Scratch::new();
    scratch.file("1", b"before");
    let mut vehicle = command(&["vehicle", DAY_M, scratch::PLAN_M, "1", "-o", "1"]);
    let ran = Ran::of(vehicle.current_dir(scratch.name(".")).output().expect("it starts"));
    assert_eq!(ran.answer(), "vehicle 1: 7 words, from word 0\n");
}

#[test]
fn a_file_that_is_read_only_is_not_replaced() {
    let scratch = Scratch::new();
    let plan = scratch.file("day.plan", b"before");
    fs::set_permissions(&plan, fs::Permissions::from_mode(0o444)).expect("they are set");
    let ran = kz(&["build", DAY_M, "-o", &plan]);
    let said = "it is read-only; allow writing with chmod, or give -o another name";
    assert_eq!(ran.failure(2), format!("kz: {plan} can't be written: {said}\n"));
    assert_eq!(fs::read(&plan).expect("it is there"), b"before");
    assert_eq!(scratch.files(), ["day.plan"]);
}

#[test]
fn nothing_is_written_where_there_is_no_answer() {
    let scratch = Scratch::new();
    let before = scratch.file("day.svg", b"before");
    let plan = scratch.words("plan", &[A1, B1, E]);
    assert_eq!(kz(&["chart", DAY_M, &plan, "-o", &before]).status, 1);
    assert_eq!(kz(&["build", &plan, "-o", &before]).status, 1);
    assert_eq!(kz(&["plan", DAY_M, "--k", "51", "-o", &before]).status, 1);
    assert_eq!(kz(&["vehicle", DAY_M, scratch::PLAN_M, "9", "-o", &before]).status, 1);
    assert_eq!(fs::read(&before).expect("it is there"), b"before");
    assert_eq!(scratch.files(), ["day.svg", "plan"]);
}

#[test]
fn an_output_that_cannot_be_written_leaves_nothing() {
    let scratch = Scratch::new();
    let plan = scratch::PLAN_M;
    let (nowhere, folder) = (scratch.name("none/out"), scratch.name("."));
    for target in [nowhere.as_str(), &folder, "", "/dev/full"] {
        for arguments in [
            vec!["build", DAY_M, "-o", target],
            vec!["plan", DAY_M, "-o", target],
            vec!["vehicle", DAY_M, plan, "1", "-o", target],
            vec!["chart", DAY_M, plan, "-o", target],
            vec!["pack", DAY_M, "-o", target],
            vec!["unpack", DAY_M, "-o", target],
            vec!["demo", "-o", target],
        ] {
            unwritten(&arguments, target);
        }
    }
    assert_eq!(scratch.files(), [""; 0]);
}

/// A limit on the size of files stands in for a disk that is full.
#[test]
fn a_disk_that_is_full_leaves_what_was_there() {
    let scratch = Scratch::new();
    let before = scratch.file("day.svg", b"before");
    let limited = "trap '' XFSZ; ulimit -f 1 && exec \"$0\" \"$@\"";
    let mut bash = Command::new("bash");
    bash.args(["-c", limited, env!("CARGO_BIN_EXE_kz"), "demo", "-o", &before]);
    let ran = Ran::of(bash.output().expect("bash is there"));
    assert!(ran.failure(2).contains("day.svg can't be written: "), "{ran:?}");
    assert_eq!(fs::read(&before).expect("it is there"), b"before");
    assert_eq!(scratch.files(), ["day.svg"]);
}

#[test]
fn a_device_is_written_to_and_not_replaced() {
    kz(&["build", DAY_M, "-o", "/dev/null"]).answer();
    let there = fs::metadata("/dev/null").expect("it is there");
    assert!(there.file_type().is_char_device());
}

#[test]
fn standard_output_that_is_full_is_a_fault() {
    let said = "kz: standard output can't be written: No space left on device (os error 28)\n";
    for arguments in [
        &["check", DAY_M, scratch::PLAN_M][..],
        &["build", DAY_M],
        &["plan", DAY_M],
        &["vehicle", DAY_M, scratch::PLAN_M, "1"],
        &["same", DAY_M, scratch::PLAN_M, scratch::PLAN_M],
        &["show", DAY_M],
        &["chart", DAY_M, scratch::PLAN_M],
        &["pack", DAY_M],
        &["unpack", DAY_M],
        &["demo"],
        &["help"],
        &["--version"],
    ] {
        for json in [&[][..], &["--json"]] {
            let full = File::options().write(true).open("/dev/full").expect("it is there");
            let mut call = command(&[arguments, json].concat());
            let ran = Ran::of(call.stdout(full).output().expect("the program starts"));
            assert_eq!(ran.failure(2), said, "{arguments:?} {json:?}");
        }
    }
}

/// A refusal in JSON that can't be printed is not lost without a word either.
#[test]
fn a_refusal_that_cannot_be_printed_is_a_fault() {
    let full = File::options().write(true).open("/dev/full").expect("it is there");
    let mut call = command(&["check", DAY_M, DAY_M, "--json"]);
    let ran = Ran::of(call.stdout(full).output().expect("the program starts"));
    assert!(ran.failure(2).starts_with("kz: standard output can't be written: "), "{ran:?}");
}

#[test]
fn a_reader_that_goes_away_is_no_fault() {
    let mut child = command(&["show", DAY_M]).stdout(Stdio::piped()).spawn().expect("it starts");
    drop(child.stdout.take());
    let ran = Ran::of(child.wait_with_output().expect("it ends"));
    assert_eq!((ran.status, ran.err.as_str()), (0, ""));
}
