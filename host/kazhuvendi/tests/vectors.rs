//! The answers of an independent implementation, which was written from the papers alone. Library and
//! second implementation give each of them, to the letter.

use std::collections::BTreeMap;

use reference::day::Day;
use reference::{build, check, day, planning, rounds, solomon};

/// One question a line, its answer behind " = "; a line `day` has the day of the lines that follow.
const DAYS: &str = include_str!("vectors/after-Q-1.txt");
/// The same with texts to bring in, which have no day.
const TEXTS: &str = include_str!("vectors/solomon.txt");

/// Room for the plan of any day.
const ROOM: usize = 5 * 240;

/// So many hexadecimal digits a number, run together; "-" is none.
fn numbers(text: &str, size: usize) -> impl Iterator<Item = u32> + '_ {
    let digits = text.trim_start_matches('-').as_bytes().chunks(size);
    let texts = digits.map(|digits| std::str::from_utf8(digits).expect("plain digits"));
    texts.map(|digits| u32::from_str_radix(digits, 16).expect("hexadecimal digits"))
}

fn words(text: &str) -> Vec<u32> {
    numbers(text, 8).collect()
}

fn bytes(text: &str) -> Vec<u8> {
    numbers(text, 2).map(|byte| byte as u8).collect()
}

fn digits(words: &[u32]) -> String {
    let text: String = words.iter().map(|word| format!("{word:08X}")).collect();
    if text.is_empty() {
        "-".to_string()
    } else {
        text
    }
}

fn number(text: &str) -> u64 {
    text.parse().expect("a decimal number")
}

fn yes(settled: bool) -> &'static str {
    if settled {
        "yes"
    } else {
        "no"
    }
}

fn same(same: bool) -> String {
    if same { "same" } else { "different" }.to_string()
}

/// What the library answers.
fn library(day: &[u32], question: &[&str]) -> String {
    let (mut plan, mut work) = (vec![0; ROOM], vec![0; ROOM]);
    let answer = match question {
        ["judge"] => {
            kazhuvendi::judge(day).map(|size| format!("accepted {} {}", size.stops, size.tips))
        }
        ["build"] => kazhuvendi::build(day, &mut plan).map(|built| {
            format!(
                "planned {} {} {}",
                built.distance,
                built.left_out,
                digits(&plan[..built.words])
            )
        }),
        ["plan", k, budget] => {
            let planned = kazhuvendi::plan(day, number(k), number(budget), &mut plan, &mut work);
            planned.map(|by| {
                let counted = format!("{} {} {}", by.trials, yes(by.settled), by.left_out);
                format!("planned {} {counted} {}", by.distance, digits(&plan[..by.words]))
            })
        }
        ["check", plan] => kazhuvendi::check(day, &words(plan))
            .map(|by| format!("lawful {} {} {}", by.distance, by.vehicles, by.served)),
        ["vehicle", plan, vehicle] => kazhuvendi::vehicle_place(day, &words(plan), number(vehicle))
            .map(|place| format!("found {} {}", place.start, place.len())),
        ["same", first, second] => {
            kazhuvendi::same_rounds(day, &words(first), &words(second)).map(same)
        }
        ["import", room, text] => {
            let mut words = vec![0; number(room) as usize];
            let read = kazhuvendi::import_solomon(&bytes(text), &mut words);
            read.map(|count| format!("read {}", digits(&words[..count])))
        }
        other => panic!("no question is {other:?}"),
    };
    answer.unwrap_or_else(|refusal| format!("refused {} {}", refusal.number, refusal.place))
}

/// What the second implementation answers.
fn second(day: &[u32], question: &[&str]) -> String {
    let answer = match question {
        ["import", room, text] => solomon::import(&bytes(text), number(room) as usize)
            .map(|words| format!("read {}", digits(&words))),
        _ => day::read(day).and_then(|day| second_of_day(&day, question)),
    };
    answer.unwrap_or_else(|refusal| format!("refused {} {}", refusal.number, refusal.place))
}

/// The same for a question about an accepted day.
fn second_of_day(day: &Day, question: &[&str]) -> Result<String, reference::Refusal> {
    match question {
        ["judge"] => Ok(format!("accepted {} {}", day.stops.len(), day.tips.len())),
        ["build"] => build::build(day, ROOM).map(|built| {
            format!("planned {} {} {}", built.distance, built.left_out, digits(&built.words))
        }),
        ["plan", k, budget] => {
            let planned = planning::plan(day, number(k), number(budget), ROOM, ROOM);
            planned.map(|by| {
                let counted = format!("{} {} {}", by.trials, yes(by.settled), by.left_out);
                format!("planned {} {counted} {}", by.distance, digits(&by.words))
            })
        }
        ["check", plan] => check::check(day, &words(plan))
            .map(|by| format!("lawful {} {} {}", by.distance, by.vehicles, by.served)),
        ["vehicle", plan, vehicle] => rounds::vehicle(day, &words(plan), number(vehicle))
            .map(|place| format!("found {} {}", place.start, place.len())),
        ["same", first, second] => {
            rounds::same_rounds(day, &words(first), &words(second)).map(same)
        }
        other => panic!("no question is {other:?}"),
    }
}

/// Compares every answer of a file, and counts the questions of each kind.
fn compared(file: &'static str) -> BTreeMap<&'static str, usize> {
    let mut day = Vec::new();
    let mut asked = BTreeMap::new();
    for line in file.lines() {
        let Some((question, answer)) = line.split_once(" = ") else {
            day = words(line.strip_prefix("day ").expect("a question or a day"));
            continue;
        };
        let question: Vec<&str> = question.split(' ').collect();
        assert_eq!(library(&day, &question), answer, "the library: {line}");
        assert_eq!(second(&day, &question), answer, "the second implementation: {line}");
        *asked.entry(question[0]).or_default() += 1;
    }
    asked
}

#[test]
fn library_and_second_implementation_give_every_answer_about_days() {
    let asked = compared(DAYS);
    let kinds: Vec<&str> = asked.keys().copied().collect();
    assert_eq!(kinds, ["build", "check", "judge", "plan", "same", "vehicle"]);
    assert!(asked.values().sum::<usize>() > 800, "{asked:?}");
}

#[test]
fn library_and_second_implementation_give_every_answer_about_texts() {
    assert_eq!(compared(TEXTS), BTreeMap::from([("import", 200)]));
}
