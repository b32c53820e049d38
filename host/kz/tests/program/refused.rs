//! Refused days and plans: exit status 1, and one line that says what is wrong, by which number and
//! where.

use std::collections::HashSet;

use reference::worked::{changed, with_words, CHANGES, DAY_M};
use reference::worked_plans::{
    day_of, long_plan, A1, B1, B2, C1, D, E, F1, F2, FORMS, NO_STOPS, PLAN_M, RULES, TWO_VEHICLES,
};

use crate::run::kz;
use crate::scratch::{self, Scratch};

/// Holds that a call is refused so: what is said, and behind the number where the fault stands. As
/// JSON there are also the library's number and place.
#[track_caller]
fn refused(call: &[&str], number: u64, place: u64, sentence: &str, spot: &str) {
    let ran = kz(call);
    assert_eq!(ran.failure(1), format!("kz: {sentence} (refusal {number}{spot})\n"));
    let json = kz(&[call, &["--json"]].concat());
    assert_eq!((json.status, json.err.as_str()), (1, ""));
    let answer = json.json();
    let refused = answer.at("refused");
    assert_eq!((refused.at("number").number(), refused.at("place").number()), (number, place));
    assert_eq!(refused.at("sentence").text(), sentence);
}

/// The sentence of a call that is refused by this number at this word of this file.
#[track_caller]
fn sentence_at(call: &[&str], number: u64, word: u64, file: &str) -> String {
    let said = kz(call).failure(1).to_string();
    let spot = format!(" (refusal {number}, word {word} of {file})\n");
    said.strip_suffix(&spot).unwrap_or_else(|| panic!("{said} is not at {spot}")).to_string()
}

/// The refusal of day M with one word changed.
#[track_caller]
fn day_with(place: usize, word: u32, number: u64, sentence: &str) {
    let scratch = Scratch::new();
    let mut words = DAY_M;
    words[place] = word;
    let day = scratch.words("day", &words);
    let spot = format!(", word {place} of {day}");
    refused(&["build", &day], number, place as u64, sentence, &spot);
}

#[test]
fn every_change_of_day_m_is_refused_as_worked_out_by_hand() {
    let scratch = Scratch::new();
    for change in CHANGES {
        let (words, refusal) = changed(change);
        let day = scratch.words("day", &words);
        match refusal {
            Some((4, 31)) => {
                let spot = format!(" (refusal 4, {day})\n");
                assert!(kz(&["show", &day]).failure(1).ends_with(&spot), "{change:X?}");
            }
            Some((number, place)) => {
                sentence_at(&["show", &day], number, place, &day);
            }
            None => assert_eq!(kz(&["show", &day]).status, 0, "{change:X?}"),
        }
    }
}

#[test]
fn every_plan_worked_out_by_hand_is_answered_so() {
    let scratch = Scratch::new();
    for worked in FORMS.iter().chain(RULES) {
        let (words, plan) = (day_of(worked), worked.2);
        let (day, file) = (scratch.words("day", &words), scratch.words("plan", plan));
        let call = ["check", &day, &file];
        match worked.3 {
            Ok((distance, vehicles, served)) => assert_eq!(
                kz(&call).answer(),
                format!(
                    "lawful: {day}: distance {distance}, vehicles {vehicles}, stops served \
                     {served}, left out {}\n",
                    2 - served
                )
            ),
            Err((number, place)) if place == plan.len() as u64 => {
                let spot = format!(" (refusal {number}, at the end of {file})\n");
                assert!(kz(&call).failure(1).ends_with(&spot), "{}", worked.0);
            }
            Err((number, place)) => {
                sentence_at(&call, number, place, &file);
            }
        }
    }
}

#[test]
fn a_sentence_says_what_is_wrong_with_a_day() {
    day_with(0, 0x1000_0002, 3, "the day says that it has 0 tips, and a day has at least one");
    day_with(0, 0x1000_01F1, 3, "the day says that it has 241 stops, and a day has at most 240");
    day_with(1, 0x3000_0064, 2, "the load in kg is 30000064, and has to begin with 2");
    let stray = "the depot's window is 51000064, where bits are set that have to be 0";
    day_with(4, 0x5100_0064, 2, stray);
    day_with(2, 0x300F_4241, 5, "the load a day in kg is 1000001, and has to be 1 to 1000000");
    day_with(3, 0x4000_00F1, 5, "the number of stops a day is 241, and has to be 1 to 240");
    let window = "the rest window opens at minute 60 and closes before that, at minute 30";
    day_with(5, 0x6003_C01E, 5, window);
    day_with(6, 0x7000_00F1, 5, "the rest in minutes is 241, and has to be 0 to 240");
    let late = "the window of tip 1 closes at minute 1441, and a day ends at minute 1440";
    day_with(7, 0x5000_05A1, 5, late);
    day_with(13, 0x7000_00F1, 5, "the service of stop 2 in minutes is 241, and has to be 0 to 240");
    let quantity = "the quantity of stop 1 in kg is 100001, and has to be 0 to 100000";
    day_with(11, 0x8001_86A1, 5, quantity);
    day_with(16, 0x95A1_0007, 5, "the leg from depot to tip 1 takes 1441 minutes, more than 1440");
    let itself = "the leg from stop 1 to stop 1 is 90000001, and has to be 90000000";
    day_with(25, 0x9000_0001, 5, itself);
}

#[test]
fn a_day_of_lines_is_refused_at_its_line() {
    let scratch = Scratch::new();
    let mut words = DAY_M;
    words[11] = 0x8001_86A1;
    let lines: String = words.iter().map(|word| format!("{word:08X}\n")).collect();
    let day = scratch.file("day.hex", format!("\n{lines}").as_bytes());
    let sentence = "the quantity of stop 1 in kg is 100001, and has to be 0 to 100000";
    refused(&["show", &day], 5, 11, sentence, &format!(", word 11, line 13 of {day}"));
    let answer = kz(&["show", &day, "--json"]).json();
    assert_eq!(answer.at("refused").at("day_line").number(), 13);
}

#[test]
fn a_day_that_is_cut_is_refused() {
    let scratch = Scratch::new();
    let day = reference::bytes::write(&DAY_M);
    for (bytes, number, place, sentence) in [
        (27, 1, 6, "the day has 27 bytes, which are no whole words of four bytes"),
        (24, 1, 6, "the day has 6 words, and no day has fewer than 7"),
        (0, 1, 0, "the day has 0 words, and no day has fewer than 7"),
        (120, 4, 30, "the day has 30 words, and one of 1 tip and 2 stops has 31"),
    ] {
        let cut = scratch.file("day", &day[..bytes]);
        refused(&["build", &cut], number, place, sentence, &format!(", {cut}"));
    }
}

/// The refusal of a plan of day M at one of its words, or at its end.
#[track_caller]
fn plan_refused(plan: &[u32], number: u64, place: usize, sentence: &str) {
    let scratch = Scratch::new();
    let file = scratch.words("plan", plan);
    let spot = if place < plan.len() {
        format!(", word {place} of {file}")
    } else {
        format!(", at the end of {file}")
    };
    refused(&["check", scratch::DAY_M, &file], number, place as u64, sentence, &spot);
}

#[test]
fn a_sentence_says_what_breaks_the_form_of_a_plan() {
    let no_kind = "10000001 is no word of a plan: those begin with A, B, C, D, E or F";
    plan_refused(&[0x1000_0001], 7, 0, no_kind);
    plan_refused(&[0xA000_0101], 7, 0, "A0000101 has bits set that have to be 0");
    plan_refused(&[0xA000_0002], 7, 0, "vehicle 2 leaves where vehicle 1 is the next");
    plan_refused(&[A1, A1], 7, 1, "vehicle 1 leaves before vehicle 1 is back");
    let behind = "vehicle 1 leaves behind a stop left out, and those come last";
    plan_refused(&[F1, A1], 7, 1, behind);
    plan_refused(&[B1], 7, 0, "stop 1 comes where no vehicle is on its way");
    plan_refused(&[C1], 7, 0, "tip 1 comes where no vehicle is on its way");
    plan_refused(&[D], 7, 0, "a rest comes where no vehicle is on its way");
    plan_refused(&[E], 7, 0, "a way back comes where no vehicle is on its way");
    let no_stop = "there is no stop 3: the stops of the day are 1 to 2";
    plan_refused(&[A1, 0xB000_0003], 7, 1, no_stop);
    plan_refused(&[0xF000_0003], 7, 0, no_stop);
    plan_refused(&[A1, 0xC000_0000], 7, 1, "there is no tip 0: the tips of the day are 1 to 1");
    plan_refused(&[A1, 0xD000_0001], 7, 1, "D0000001 has the number 1, which has to be 0");
    plan_refused(&[A1, E], 7, 1, "vehicle 1 comes back without a stop");
    plan_refused(&[A1, F1], 7, 1, "stop 1 is left out before vehicle 1 is back");
    let falling = "stop 1 is left out behind stop 2, and the stops left out have to rise";
    plan_refused(&[F2, F1], 7, 1, falling);
    plan_refused(&PLAN_M[..6], 7, 6, "the plan ends before vehicle 1 is back");
    let again = "stop 1 comes a second time: word 1 has it already";
    plan_refused(&[A1, B1, C1, B1], 8, 3, again);
    plan_refused(&[A1, B1, C1, E], 8, 4, "stop 2 is neither served nor left out");
}

#[test]
fn a_day_without_stops_has_no_stop_to_serve() {
    let scratch = Scratch::new();
    let (day, plan) = (scratch.words("day", &NO_STOPS), scratch.words("plan", &[A1, B1]));
    let spot = format!(", word 1 of {plan}");
    let sentence = "there is no stop 1: the day has no stops";
    refused(&["check", &day, &plan], 7, 1, sentence, &spot);
}

#[test]
fn a_sentence_says_which_limit_a_plan_breaks() {
    let load = "stop 2 loads vehicle 1 with 110 kg, and 100 kg is the most";
    plan_refused(&[A1, B1, B2], 9, 2, load);
    plan_refused(&[A1, B1, E], 10, 2, "vehicle 1 comes back with 60 kg on board");
    let closed = "stop 2 is reached by vehicle 1 at 01:20, and closes at 00:50";
    plan_refused(&[A1, D, B1, C1, B2], 11, 4, closed);
    plan_refused(&[A1, D, D], 12, 2, "vehicle 1 rests a second time, and it may rest once");
    let late = [A1, B1, C1, B2, C1, C1, D];
    let rest = "vehicle 1 rests at 01:05, and a rest has to start by 01:00";
    plan_refused(&late, 12, 6, rest);
    let unrested = "vehicle 1 is back at 01:10 without a rest, which was due by 01:00";
    plan_refused(&[A1, B1, C1, B2, C1, E], 12, 5, unrested);
}

/// The refusal of day M's own plan where one word of the day is another.
#[track_caller]
fn plan_m_refused(change: (usize, u32), number: u64, place: u64, sentence: &str) {
    let scratch = Scratch::new();
    let day = scratch.words("day", &with_words(&[change]));
    let spot = format!(", word {place} of {}", scratch::PLAN_M);
    refused(&["check", &day, scratch::PLAN_M], number, place, sentence, &spot);
}

#[test]
fn a_sentence_says_which_limit_of_the_day_a_plan_breaks() {
    let kg = "stop 2 brings vehicle 1 to 110 kg in the day, and 109 kg is the most";
    plan_m_refused((2, 0x3000_006D), 9, 4, kg);
    let count = "stop 2 is stop number 2 of vehicle 1, and 1 is the most";
    plan_m_refused((3, 0x4000_0001), 9, 4, count);
    let tip = "tip 1 is reached by vehicle 1 at 00:25, and closes at 00:24";
    plan_m_refused((7, 0x5000_0018), 11, 2, tip);
    let depot = "vehicle 1 is back at 01:20, and the depot closes at 01:19";
    plan_m_refused((4, 0x5000_004F), 11, 6, depot);
}

/// Day M in text, with names. Its tip is on line 10 and its stops are on lines 12 and 13.
fn named_day(scratch: &Scratch) -> String {
    let text = kz(&["unpack", scratch::DAY_M]).text().to_string();
    let named = text.replace("\"stop 2\"", "\"Baker, Market 2\"").replace("\"tip 1\"", "yard");
    scratch.file("day.txt", named.as_bytes())
}

/// A refusal of a plan of lines: its number, the word and its line; the stop or tip and its line in
/// the day's text.
#[track_caller]
fn named_refusal(
    lines: &str,
    sentence: &str,
    (number, word, plan_line): (u64, u64, u64),
    (place, day_line): (&str, u64),
) {
    let scratch = Scratch::new();
    let (day, plan) = (named_day(&scratch), scratch.file("plan.hex", lines.as_bytes()));
    let spot = format!(
        ", word {word}, line {plan_line} of {plan}; {place} is on line {day_line} of {day}"
    );
    refused(&["check", &day, &plan], number, word, sentence, &spot);
    let answer = kz(&["check", &day, &plan, "--json"]).json();
    let lines = ["plan_line", "day_line"].map(|name| answer.at("refused").at(name).number());
    assert_eq!(lines, [plan_line, day_line]);
}

#[test]
fn a_refusal_names_the_stop_and_the_lines_of_the_plan_and_the_day() {
    named_refusal(
        "A0000001\nD0000000\nB0000001\n\nC0000001\nB0000002\nC0000001\nE0000000\n",
        "stop 2 (Baker, Market 2) is reached by vehicle 1 at 01:20, and closes at 00:50",
        (11, 4, 6),
        ("stop 2", 13),
    );
    named_refusal(
        "A0000001\nB0000001\nB0000002\n",
        "stop 2 (Baker, Market 2) loads vehicle 1 with 110 kg, and 100 kg is the most",
        (9, 2, 3),
        ("stop 2", 13),
    );
    named_refusal(
        "C0000001\n",
        "tip 1 (yard) comes where no vehicle is on its way",
        (7, 0, 1),
        ("tip 1", 10),
    );
}

#[test]
fn a_stop_that_a_plan_lacks_is_named() {
    let scratch = Scratch::new();
    let (day, plan) = (named_day(&scratch), scratch.words("plan", &[A1, B1, C1, E]));
    let sentence = "stop 2 (Baker, Market 2) is neither served nor left out";
    let spot = format!(", at the end of {plan}; stop 2 is on line 13 of {day}");
    refused(&["check", &day, &plan], 8, 4, sentence, &spot);
}

#[test]
fn a_plan_that_is_too_long_is_refused() {
    let scratch = Scratch::new();
    let (day, plan) = long_plan(4_097);
    let files = [scratch.words("day", &day.words()), scratch.words("plan", &plan)];
    let sentence = "the plan has 4097 words, and a plan has at most 4096";
    let spot = format!(", {}", files[1]);
    refused(&["check", &files[0], &files[1]], 6, 4_096, sentence, &spot);
}

#[test]
fn a_plan_that_is_cut_inside_a_word_is_refused() {
    let scratch = Scratch::new();
    let plan = reference::bytes::write(&PLAN_M);
    let cut = scratch.file("plan", &plan[..27]);
    let sentence = "the plan has 27 bytes, which are no whole words of four bytes";
    refused(&["check", scratch::DAY_M, &cut], 1, 6, sentence, &format!(", {cut}"));
}

#[test]
fn neighbours_and_vehicles_out_of_range_are_refused() {
    let scratch = Scratch::new();
    for (k, place) in [("0", 0), ("51", 51)] {
        let output = scratch.name("plan");
        let call = ["plan", scratch::DAY_M, "--k", k, "-o", &output];
        refused(&call, 13, place, &format!("K is {k}, and has to be 1 to 50"), "");
    }
    for (number, place) in [("0", 0), ("2", 2), ("257", 257)] {
        let call = ["vehicle", scratch::DAY_M, scratch::PLAN_M, number];
        let sentence = format!("there is no vehicle {number} in the plan, which has 1");
        refused(&call, 15, place, &sentence, &format!(", {}", scratch::PLAN_M));
    }
    assert_eq!(scratch.files(), [""; 0]);
}

#[test]
fn of_two_plans_the_one_that_is_wrong_is_named() {
    let scratch = Scratch::new();
    let lawful = scratch.words("lawful", &TWO_VEHICLES);
    let cut = scratch.words("cut", &TWO_VEHICLES[..7]);
    let (sentence, spot) =
        ("the plan ends before vehicle 2 is back", format!(", at the end of {cut}"));
    refused(&["same", scratch::DAY_M, &cut, &lawful], 7, 7, sentence, &spot);
    refused(&["same", scratch::DAY_M, &lawful, &cut], 7, 15, sentence, &spot);
    let loaded = scratch.words("loaded", &[A1, B1, E]);
    let (sentence, spot) =
        ("vehicle 1 comes back with 60 kg on board", format!(", word 2 of {loaded}"));
    refused(&["same", scratch::DAY_M, &lawful, &loaded], 10, 10, sentence, &spot);
}

#[test]
fn every_command_that_takes_a_plan_refuses_an_unlawful_one() {
    let scratch = Scratch::new();
    let plan = scratch.words("plan", &[A1, B1, E]);
    let mut said = HashSet::new();
    for call in [
        &["check", scratch::DAY_M, &plan][..],
        &["vehicle", scratch::DAY_M, &plan, "1"],
        &["show", scratch::DAY_M, &plan],
        &["chart", scratch::DAY_M, &plan],
    ] {
        said.insert(sentence_at(call, 10, 2, &plan));
    }
    assert_eq!(said.len(), 1);
}
