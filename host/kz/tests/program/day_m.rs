//! Day M through every command, in plain words and as JSON.

use std::collections::{BTreeMap, BTreeSet};

use kz::commands::COMMANDS;
use reference::worked::DAY_M as DAY_WORDS;
use reference::worked_plans::{PLAN_M as PLAN_WORDS, TWO_VEHICLES};

use crate::json::Json;
use crate::page::read;
use crate::run::kz;
use crate::scratch::{Scratch, DAY_M, HARBOUR, PLAN_M};
use crate::svg;

/// The answer of a command, as JSON.
#[track_caller]
fn json(arguments: &[&str]) -> Json {
    let ran = kz(&[arguments, &["--json"]].concat());
    assert_eq!((ran.status, ran.err.as_str()), (0, ""), "{ran:?}");
    ran.json()
}

fn words(list: &Json) -> Vec<u32> {
    let word = |item: &Json| u32::from_str_radix(item.text(), 16).expect("eight digits");
    list.list().iter().map(word).collect()
}

#[test]
fn check() {
    let lawful = "distance 35, vehicles 1, stops served 2, left out 0";
    assert_eq!(kz(&["check", DAY_M, PLAN_M]).answer(), format!("lawful: {DAY_M}: {lawful}\n"));
    let answer = json(&["check", DAY_M, PLAN_M]);
    assert_eq!(answer.at("lawful"), &Json::Truth(true));
    let numbers =
        ["distance", "vehicles", "served", "left_out"].map(|name| answer.at(name).number());
    assert_eq!(numbers, [35, 1, 2, 0]);
}

#[test]
fn build() {
    let ran = kz(&["build", DAY_M, "--hex"]);
    assert_eq!(ran.answer().lines().count(), 7);
    let built = "distance 35, vehicles 1, stops left out 0, words 7";
    assert_eq!(ran.err, format!("built: {DAY_M}: {built}\n"));
    let answer = json(&["build", DAY_M]);
    assert_eq!(answer.at("distance").number(), 35);
    assert_eq!(words(answer.at("plan")), PLAN_WORDS);
}

#[test]
fn plan() {
    let answer = json(&["plan", DAY_M, "--k", "5"]);
    let numbers = ["distance", "greedy_distance", "trials", "left_out"];
    assert_eq!(numbers.map(|name| answer.at(name).number()), [35, 35, 6, 0]);
    assert_eq!(answer.at("settled"), &Json::Truth(true));
    assert_eq!(answer.at("interrupted"), &Json::Truth(false));
    assert_eq!(words(answer.at("plan")), PLAN_WORDS);
    let answer = json(&["plan", DAY_M]);
    assert_eq!(answer.at("trials").number(), 24);
    assert_eq!(answer.at("others").list()[0].at("trials").number(), 6);
}

#[test]
fn vehicle() {
    let scratch = Scratch::new();
    let two = scratch.words("plan", &TWO_VEHICLES);
    let ran = kz(&["vehicle", DAY_M, &two, "2"]);
    for told in ["Vehicle 2", "00:10", "stop 2", "tip 1", "00:40"] {
        assert!(ran.answer().contains(told), "{told}: {}", ran.text());
    }
    assert!(!ran.text().contains("stop 1"), "{}", ran.text());
    let hex = kz(&["vehicle", DAY_M, &two, "2", "--hex"]);
    assert_eq!(hex.answer(), "A0000002\nB0000002\nC0000001\nE0000000\n");
    assert_eq!(hex.err, "vehicle 2: 4 words, from word 4\n");
    let answer = json(&["vehicle", DAY_M, &two, "2"]);
    assert_eq!(answer.at("place").number(), 4);
    assert_eq!(words(answer.at("words")), TWO_VEHICLES[4..]);
    assert_eq!(answer.at("sheet").at("entries").list().len(), 4);
}

#[test]
fn same() {
    let scratch = Scratch::new();
    let two = scratch.words("plan", &TWO_VEHICLES);
    assert_eq!(kz(&["same", DAY_M, PLAN_M, PLAN_M]).answer(), "the same rounds\n");
    assert_eq!(kz(&["same", DAY_M, PLAN_M, &two]).answer(), "different rounds\n");
    assert_eq!(json(&["same", DAY_M, PLAN_M, PLAN_M]).at("same"), &Json::Truth(true));
    assert_eq!(json(&["same", DAY_M, PLAN_M, &two]).at("same"), &Json::Truth(false));
}

#[test]
fn show() {
    let day = kz(&["show", DAY_M]);
    for told in ["00:30-01:00", "stop 2", "60", "50"] {
        assert!(day.answer().contains(told), "{told}: {}", day.text());
    }
    let plan = kz(&["show", DAY_M, PLAN_M]);
    for told in ["Vehicle 1", "00:25", "rest", "01:20", "35"] {
        assert!(plan.answer().contains(told), "{told}: {}", plan.text());
    }
    let answer = json(&["show", DAY_M]);
    let stops = answer.at("stops").list();
    assert_eq!(stops.iter().map(|stop| stop.at("quantity").number()).collect::<Vec<_>>(), [60, 50]);
    assert_eq!(answer.at("rest").at("closing").number(), 60);
}

#[test]
fn show_with_a_plan_gives_the_earliest_minutes() {
    let answer = json(&["show", DAY_M, PLAN_M]);
    let sheet = &answer.at("sheets").list()[0];
    let minutes = |name| -> Vec<u64> {
        sheet.at("entries").list().iter().map(|entry| entry.at(name).number()).collect()
    };
    assert_eq!(minutes("start"), [0, 10, 25, 30, 50, 65, 80]);
    assert_eq!(minutes("end"), [0, 15, 30, 40, 55, 70, 80]);
    assert_eq!(minutes("load"), [0, 60, 0, 0, 50, 0, 0]);
    assert_eq!(minutes("distance"), [0, 7, 14, 14, 21, 28, 35]);
    assert_eq!(answer.at("left_out").number(), 0);
    assert_eq!(answer.at("stops_left_out").list().len(), 0);
}

#[test]
fn stops_left_out_are_shown() {
    let scratch = Scratch::new();
    let plan = scratch.words("plan", &[0xF000_0001, 0xF000_0002]);
    let shown = kz(&["show", DAY_M, &plan]);
    assert!(shown.answer().contains("left out"), "{}", shown.text());
    let answer = json(&["show", DAY_M, &plan]);
    assert_eq!((answer.at("vehicles").number(), answer.at("left_out").number()), (0, 2));
    let left_out = answer.at("stops_left_out").list();
    let numbers: Vec<u64> = left_out.iter().map(|stop| stop.at("number").number()).collect();
    assert_eq!(numbers, [1, 2]);
}

/// The lanes of a chart, which has to be well-formed and to name the vehicles in order.
fn lanes(chart: &str) -> usize {
    let picture = svg::read(chart);
    assert_eq!(picture.name, "svg");
    assert_eq!(picture.attribute("xmlns"), "http://www.w3.org/2000/svg");
    assert!(picture.of_class("paper")[0].number("height") > 0.0);
    let lanes = picture.of_class("lane");
    for (number, lane) in (1..).zip(&lanes) {
        assert_eq!(lane.inside[0].text, format!("vehicle {number}"));
    }
    lanes.len()
}

#[test]
fn chart() {
    let scratch = Scratch::new();
    let two = scratch.words("plan", &TWO_VEHICLES);
    let svg = scratch.name("day.svg");
    for (plan, vehicles) in [(PLAN_M, 1), (two.as_str(), 2)] {
        let printed = kz(&["chart", DAY_M, plan]);
        assert_eq!(lanes(printed.answer()), vehicles);
        kz(&["chart", DAY_M, plan, "-o", &svg]).answer();
        assert_eq!(std::fs::read_to_string(&svg).expect("it is there"), printed.text());
        let answer = json(&["chart", DAY_M, plan]);
        assert_eq!(answer.at("svg").text(), printed.text());
        assert_eq!(answer.at("vehicles").number(), vehicles as u64);
    }
}

#[test]
fn pack_and_unpack() {
    assert_eq!(words(json(&["pack", DAY_M]).at("day")), DAY_WORDS);
    let text = json(&["unpack", DAY_M]).at("text").text().to_string();
    assert_eq!(text, kz(&["unpack", DAY_M]).answer());
    let scratch = Scratch::new();
    let again = json(&["pack", &scratch.file("day.txt", text.as_bytes())]);
    assert_eq!(words(again.at("day")), DAY_WORDS);
    assert_eq!((again.at("stop_count").number(), again.at("tip_count").number()), (2, 1));
}

#[test]
fn demo() {
    let scratch = Scratch::new();
    let svg = scratch.name("day.svg");
    let ran = kz(&["demo", "-o", &svg]);
    let answer = json(&["demo"]);
    let [greedy, settled] = ["greedy_distance", "distance"].map(|name| answer.at(name).number());
    assert!(settled < greedy);
    assert_eq!(answer.at("settled"), &Json::Truth(true));
    for told in ["greedy plan:", "settled plan:", "Vehicle 1", "\nThe chart is in "] {
        assert!(ran.answer().contains(told), "{told}: {}", ran.text());
    }
    let vehicles = words(answer.at("plan")).iter().filter(|word| *word >> 28 == 0xA).count();
    assert_eq!(lanes(&std::fs::read_to_string(&svg).expect("it is there")), vehicles);
    assert_eq!(scratch.files(), ["day.svg"]);
}

#[test]
fn the_sample_day_of_the_demo_is_the_committed_one() {
    let depot = concat!(env!("CARGO_MANIFEST_DIR"), "/../../examples/depot.txt");
    let planned = json(&["plan", depot]);
    let demo = json(&["demo"]);
    for name in ["distance", "greedy_distance", "k", "trials", "plan"] {
        assert_eq!(planned.at(name), demo.at(name), "{name}");
    }
}

/// The day's name is said, or its file where it has none.
#[test]
fn what_is_said_of_a_plan_names_the_day() {
    let scratch = Scratch::new();
    let text = kz(&["unpack", DAY_M]).answer().replacen("day\n", "day \"Day M\"\n", 1);
    let (named, svg) = (scratch.file("day.txt", text.as_bytes()), scratch.name("day.svg"));
    let planned = "distance 35 (greedy 35), vehicles 1, stops left out 0, words 7";
    for (day, label) in [(DAY_M, DAY_M), (&named, "Day M")] {
        let said = |arguments: &[&str]| {
            let ran = kz(arguments);
            assert_eq!(ran.status, 0, "{ran:?}");
            if ran.err.is_empty() {
                ran.text().to_string()
            } else {
                ran.err
            }
        };
        let lawful = "distance 35, vehicles 1, stops served 2, left out 0";
        assert_eq!(said(&["check", day, PLAN_M]), format!("lawful: {label}: {lawful}\n"));
        let trials = "K 5, 6 trials, settled";
        assert_eq!(
            said(&["plan", day, "--k", "5"]),
            format!("planned: {label}: {planned}; {trials}\n")
        );
        let built = "distance 35, vehicles 1, stops left out 0, words 7";
        assert_eq!(said(&["build", day]), format!("built: {label}: {built}\n"));
        let drawn = "vehicles 1, distance 35";
        assert_eq!(said(&["chart", day, PLAN_M, "-o", &svg]), format!("drawn: {label}: {drawn}\n"));
    }
}

/// Notes what kind of value each name has, in this value and all within it.
fn note_kinds(value: &Json, kinds: &mut BTreeMap<String, BTreeSet<&'static str>>) {
    match value {
        Json::List(items) => items.iter().for_each(|item| note_kinds(item, kinds)),
        Json::Object(members) => {
            for (name, member) in members {
                let kind = match member {
                    Json::Truth(_) => "truth",
                    Json::Number(_) => "number",
                    Json::Text(_) => "text",
                    Json::List(_) => "list",
                    Json::Object(_) => "object",
                };
                kinds.entry(name.clone()).or_default().insert(kind);
                note_kinds(member, kinds);
            }
        }
        _ => {}
    }
}

/// The names of the table of members on the page for developers, with the kind of their values.
fn listed_kinds() -> BTreeMap<String, BTreeSet<&'static str>> {
    let page = read("docs/INTEGRATE.md");
    let mut kinds = BTreeMap::new();
    for row in page.lines().filter(|row| row.starts_with("| `")) {
        let cells: Vec<&str> = row.split(" | ").collect();
        let Some(kind) = ["truth", "number", "text", "list", "object"]
            .into_iter()
            .find(|kind| *kind == cells[1])
        else {
            continue;
        };
        for name in cells[0].split('`').skip(1).step_by(2) {
            assert_eq!(kinds.insert(name.to_string(), BTreeSet::from([kind])), None, "{name}");
        }
    }
    kinds
}

#[test]
fn every_name_in_json_has_values_of_one_kind_and_the_page_lists_it() {
    let scratch = Scratch::new();
    let plan = scratch.words("plan", &[0xF000_0001, 0xF000_0002]);
    let text = scratch.file("day.txt", kz(&["unpack", DAY_M]).answer().as_bytes());
    let unlawful = scratch.file("plan.hex", b"B0000001\n");
    let broken = scratch.file("broken.txt", b"day\nload many kg\n");
    let swapped = scratch.words("other", &reference::worked::with_words(&[(11, 0x8000_0032)]));
    let noted = scratch.name("noted");
    kz(&["build", DAY_M, "-o", &noted]).answer();
    let mut kinds = BTreeMap::new();
    for arguments in [
        &["check", DAY_M, PLAN_M][..],
        &["build", DAY_M],
        &["plan", DAY_M],
        &["vehicle", DAY_M, PLAN_M, "1"],
        &["same", DAY_M, PLAN_M, &plan],
        &["show", DAY_M],
        &["show", DAY_M, PLAN_M],
        &["show", DAY_M, &plan],
        &["chart", DAY_M, PLAN_M],
        &["pack", DAY_M],
        &["unpack", DAY_M],
        &["import", HARBOUR],
        &["import", &broken],
        &["demo"],
        &["check", &text, &unlawful],
        &["check", &swapped, &noted],
        &["chek"],
        &["show", &broken],
    ] {
        note_kinds(&kz(&[arguments, &["--json"]].concat()).json(), &mut kinds);
    }
    assert_eq!(kinds, listed_kinds());
}

#[test]
fn every_command_was_run() {
    let here = include_str!("day_m.rs");
    for command in COMMANDS {
        assert!(here.contains(&format!("&[\"{}\"", command.name)), "{}", command.name);
    }
}
