//! The picture of a plan: it is well-formed, and shows what the sheets say.

mod plans;
mod svg;

use kz::chart;
use kz::day::Day;
use kz::depot;
use kz::sheet::{Act, Entry, Round, Sheet};
use kz::text::{parse, Names};
use plans::cases;
use reference::worked::DAY_M;
use reference::worked_plans::{A1, B1, C1, E, F2, PLAN_M};
use svg::{read, Element};

fn picture(words: &[u32], plan: &[u32]) -> Element {
    let day = Day::of(words);
    let names = Names::numbered(day.stops.len(), day.tips.len());
    read(&chart::svg(&day, &names, &Sheet::of(&day, plan)))
}

/// Positions are written with one decimal.
const ROUNDING: f64 = 0.11;

/// How many of a vehicle's words are of a kind.
fn count(round: &Round, is: impl Fn(&Entry) -> bool) -> usize {
    round.entries.iter().filter(|entry| is(entry)).count()
}

fn assert_shows(lane: &Element, round: &Round) {
    assert_eq!(lane.inside[0].text, format!("vehicle {}", round.number));
    let shown = |class: &str| lane.of_class(class).len();
    assert_eq!(shown("stop"), round.stops);
    assert_eq!(shown("window"), round.stops);
    assert_eq!(shown("served"), round.stops);
    assert_eq!(shown("tip"), round.tippings());
    assert_eq!(shown("rest"), count(round, |entry| entry.act == Act::Rest));
    assert_eq!(shown("wait"), count(round, |entry| entry.waiting() > 0));
    assert_eq!(shown("depot"), 2);
    let pairs = round.entries.windows(2);
    assert_eq!(shown("drive"), pairs.filter(|pair| pair[1].arrival > pair[0].end).count());
}

/// Each stop is served within its window as drawn, and no block begins before the last one ends.
fn assert_in_order(lane: &Element) {
    for (window, served) in lane.of_class("window").iter().zip(lane.of_class("served")) {
        let start = served.number("x");
        assert!(start > window.number("x1") - ROUNDING && start < window.number("x2") + ROUNDING);
    }
    let mut free = 0.0;
    for visit in lane.of_class("visit") {
        let block = visit.inside.iter().find(|element| element.name == "rect").expect("a block");
        assert!(block.number("x") > free - ROUNDING);
        free = block.number("x") + block.number("width");
    }
}

#[test]
fn there_is_a_lane_for_each_vehicle_that_shows_what_it_does() {
    for (made, plan, _, sheet) in cases(9, 150) {
        let picture = picture(&made.words(), &plan);
        let lanes = picture.of_class("lane");
        assert_eq!(lanes.len(), sheet.rounds.len());
        for (lane, round) in lanes.iter().zip(&sheet.rounds) {
            assert_shows(lane, round);
            assert_in_order(lane);
        }
    }
}

#[test]
fn minutes_are_where_the_hours_say() {
    let picture = picture(&DAY_M, &PLAN_M);
    let at = |time: &str| {
        let hours = picture.of_class("time");
        hours.iter().find(|hour| hour.text == time).expect("a time").number("x")
    };
    let blocks = |class: &str| -> Vec<f64> {
        picture.of_class("lane")[0].of_class(class).iter().map(|block| block.number("x")).collect()
    };
    assert_eq!(blocks("stop"), [at("00:10"), at("00:50")]);
    assert_eq!(blocks("rest"), [at("00:30")]);
    let band = picture.of_class("rest-window")[0];
    assert_eq!((band.number("x"), band.number("width")), (at("00:30"), at("01:00") - at("00:30")));
}

#[test]
fn stops_left_out_are_listed() {
    let listed = |plan: &[u32]| {
        let lines = picture(&DAY_M, plan);
        lines.of_class("listed").last().expect("a line").text.clone()
    };
    assert_eq!(listed(&PLAN_M), "Stops left out: none");
    let some = listed(&[A1, B1, C1, E, F2]);
    assert_eq!(some, "Stops left out: 2 (50 kg, 00:00-00:50)");
}

#[test]
fn names_are_written_as_they_are_and_need_no_other_file() {
    let text = depot::sample_text()
        .replace("Millbrook depot", "Bits & <Pieces>")
        .replace("\"Quarry landfill\"", "\"Pit <3> & Sons\"");
    let named = parse(&text).expect("a day");
    let day = Day::of(&named.words);
    let written = chart::svg(&day, &named.names, &Sheet::of(&day, &plan_of(&named.words)));
    let picture = read(&written);
    assert_eq!(picture.of_class("title")[0].text, "Bits & <Pieces>, Tuesday 12 May");
    let listed = picture.of_class("listed");
    assert!(listed.iter().any(|line| line.text.contains("T3 Pit <3> & Sons (08:00-15:00")));
    let labels = picture.of_class("label");
    assert_eq!(labels.len(), day.stops.len(), "each stop has its name");
    for other in ["<script", "href", "@import", "<image", "<!ENTITY"] {
        assert!(!written.contains(other), "{other}");
    }
}

fn plan_of(words: &[u32]) -> Vec<u32> {
    let stops = kazhuvendi::judge(words).expect("a day").stops;
    let mut plan = vec![0; 5 * stops];
    let planned = kazhuvendi::build(words, &mut plan).expect("a plan");
    plan.truncate(planned.words);
    plan
}

/// Everything lies on the sheet, and the sample day's fits A4 across when it has five vehicles.
#[test]
fn the_sheet_is_as_large_as_what_is_drawn() {
    let sample = depot::sample();
    let day = Day::of(&sample.words);
    let plan = plan_of(&sample.words);
    let picture = read(&chart::svg(&day, &sample.names, &Sheet::of(&day, &plan)));
    let view: Vec<f64> = picture
        .attribute("viewBox")
        .split(' ')
        .map(|part| part.parse().expect("a number"))
        .collect();
    let [left, top, width, height] = view[..] else { panic!("four numbers") };
    assert_eq!((left, top, width), (0.0, 0.0, 1_188.0));
    assert!(height <= 840.0, "{height} is more than A4 has");
    for class in ["stop", "tip", "rest", "time", "listed", "meaning", "sum"] {
        for element in picture.of_class(class) {
            let (x, y) = (element.number("x"), element.number("y"));
            assert!((0.0..width).contains(&x) && (0.0..height).contains(&y), "{element:?}");
        }
    }
}
