//! Planning with trials, in steps, and both ways.

use std::fs;
use std::process::Command;
use std::time::{Duration, Instant};

use kz::neighbours::{Neighbours, USUAL};
use reference::bytes;
use reference::random::Random;
use reference::trial_days::day_of_many_short_rounds;

use crate::json::Json;
use crate::run::{kz, Ran};
use crate::scratch::{self, Scratch};

/// The distance and the words that the library gives for this budget, in a single call.
fn single_call(day: &[u32], stops: usize, way: Neighbours, budget: u64) -> (u64, Vec<u32>) {
    let (mut plan, mut work) = (vec![0; 5 * stops], vec![0; 5 * stops]);
    let planned = way.plan(day, budget, &mut plan, &mut work).expect("it is planned");
    plan.truncate(planned.words);
    (planned.distance, plan)
}

#[test]
fn day_m_is_settled_by_six_trials_and_not_by_five() {
    let scratch = Scratch::new();
    let output = scratch.name("plan");
    let plan =
        |trials| kz(&["plan", scratch::DAY_M, "--k", "5", "--trials", trials, "-o", &output]);
    let planned = "distance 35 (greedy 35), vehicles 1, stops left out 0, words 7";
    let begin = format!("planned: {}: {planned}; ", scratch::DAY_M);
    assert_eq!(plan("5").answer(), format!("{begin}K 5, 5 trials, not settled\n"));
    assert_eq!(plan("6").answer(), format!("{begin}K 5, 6 trials, settled\n"));
    assert_eq!(plan("18446744073709551615").answer(), format!("{begin}K 5, 6 trials, settled\n"));
}

#[test]
fn with_growing_sets_day_m_is_settled_by_24_trials_and_not_by_23() {
    let scratch = Scratch::new();
    let output = scratch.name("plan");
    let plan =
        |trials| kz(&["plan", scratch::DAY_M, "--k", "5-50", "--trials", trials, "-o", &output]);
    assert!(plan("23").answer().ends_with("; K 5-50, 23 trials, not settled\n"));
    assert!(plan("24").answer().ends_with("; K 5-50, 24 trials, settled\n"));
}

#[test]
fn k_is_a_number_or_5_50() {
    for wrong in ["5-10", "5-", "K", "-1", "5.0", ""] {
        let ran = kz(&["plan", scratch::DAY_M, "--k", wrong]);
        let told = format!("--k has to be a whole number or 5-50, not '{wrong}'");
        assert!(ran.status == 2 && ran.err.contains(&told), "{ran:?}");
    }
}

#[test]
fn steps_give_the_plan_of_a_single_call() {
    let scratch = Scratch::new();
    let stops = 40;
    let words = day_of_many_short_rounds(&mut Random::new(3), stops, 4).words();
    let day = scratch.words("day", &words);
    for (k, way) in [("50", Neighbours::Fixed(50)), ("5-50", Neighbours::Growing)] {
        for budget in [0, 1, 999, 1_000, 1_001, 2_500, 8_000, 1_000_000] {
            let ran = kz(&["plan", &day, "--k", k, "--trials", &budget.to_string()]);
            let (_, single) = single_call(&words, stops, way, budget);
            assert_eq!(ran.out, bytes::write(&single), "K {k}, {budget}");
        }
        let (_, settled) = single_call(&words, stops, way, u64::MAX);
        assert_eq!(kz(&["plan", &day, "--settle", "--k", k]).out, bytes::write(&settled));
    }
}

/// Days on which the one way gives the shorter plan, and days on which the other does.
#[test]
fn without_k_the_shorter_plan_of_both_ways_is_kept_and_it_is_said_which() {
    let (mut growing, mut fixed) = (0, 0);
    for seed in 0..12 {
        let scratch = Scratch::new();
        let words = day_of_many_short_rounds(&mut Random::new(seed), 30, 4).words();
        let (day, output) = (scratch.words("day", &words), scratch.name("plan"));
        let [one, other] = USUAL else { panic!("there are two ways") };
        let (one_distance, one_words) = single_call(&words, 30, *one, u64::MAX);
        let (other_distance, other_words) = single_call(&words, 30, *other, u64::MAX);
        let said = kz(&["plan", &day, "-o", &output]).answer().to_string();
        let kept = fs::read(&output).expect("the plan is there");
        if one_distance <= other_distance {
            growing += usize::from(one_distance < other_distance);
            assert_eq!(kept, bytes::write(&one_words));
            assert!(said.contains("; K 5-50, ") && said.contains("; K 50: distance "), "{said}");
            assert!(said.contains(&format!(": distance {one_distance} (greedy ")), "{said}");
        } else {
            fixed += 1;
            assert_eq!(kept, bytes::write(&other_words));
            assert!(said.contains("; K 50, ") && said.contains("; K 5-50: distance "), "{said}");
            assert!(said.contains(&format!(": distance {other_distance} (greedy ")), "{said}");
        }
    }
    assert!(growing > 0 && fixed > 0, "{growing}, {fixed}");
}

#[test]
fn the_sample_depot_is_planned_both_ways() {
    let depot = concat!(env!("CARGO_MANIFEST_DIR"), "/../../examples/depot.txt");
    let trials = |arguments: &[&str]| {
        let answer = kz(&[arguments, &["--json"]].concat()).json();
        (answer.at("distance").number(), answer.at("trials").number())
    };
    assert_eq!(trials(&["plan", depot, "--k", "10"]), (168_276, 11_502));
    assert_eq!(trials(&["plan", depot, "--k", "50"]), (165_776, 32_517));
    assert_eq!(trials(&["plan", depot, "--k", "5-50"]), (167_804, 15_892));
    assert_eq!(trials(&["plan", depot]), (165_776, 32_517));
    assert_eq!(trials(&["demo"]), (165_776, 32_517));
    let answer = kz(&["plan", depot, "--json"]).json();
    let k = |answer: &Json| answer.at("k").list().iter().map(Json::number).collect::<Vec<u64>>();
    assert_eq!(k(&answer), [50]);
    let [other] = answer.at("others").list() else { panic!("there is one other way") };
    assert_eq!(k(other), [5, 10, 25, 50]);
    assert_eq!((other.at("distance").number(), other.at("trials").number()), (167_804, 15_892));
    assert_eq!(other.at("settled"), &Json::Truth(true));
    assert!(kz(&["plan", depot, "--k", "50", "--json"]).json().at("others").list().is_empty());
}

#[test]
fn progress_shows_trials_and_distances_that_never_grow() {
    let scratch = Scratch::new();
    let words = day_of_many_short_rounds(&mut Random::new(4), 60, 4).words();
    let (day, output) = (scratch.words("day", &words), scratch.name("plan"));
    let ran = kz(&["plan", &day, "--progress", "-o", &output]);
    let lines: Vec<(&str, &str)> =
        ran.err.lines().filter_map(|line| line.split_once(": ")).collect();
    let steps: Vec<Vec<u64>> = lines.iter().map(|(_, line)| numbers(line)).collect();
    assert!(steps.len() > 5, "{}", ran.err);
    for (way, other) in [("K 5-50", "K 50"), ("K 50", "K 5-50")] {
        let of = |name| lines.iter().zip(&steps).filter(move |((way, _), _)| *way == name);
        let trials: Vec<u64> = of(way).map(|(_, step)| step[0]).collect();
        assert!(trials.len() > 2 && trials.is_sorted_by(|one, next| one < next), "{}", ran.err);
        assert_eq!(of(way).count() + of(other).count(), steps.len(), "{}", ran.err);
    }
    for pair in steps.windows(2) {
        let [_, distance, saved, kept, made] = pair[1][..] else { panic!("{}", ran.err) };
        assert!(pair[0][1] >= distance, "{}", ran.err);
        assert_eq!(distance + saved, steps[0][1], "{}", ran.err);
        let shorter = u64::from(distance < pair[0][1]);
        assert_eq!((kept, made), (pair[0][3] + shorter, pair[0][4] + 1), "{}", ran.err);
    }
    assert_eq!(steps[0][0], 0);
    let plan = fs::read(&output).expect("the plan is there");
    let last = &steps[steps.len() - 1];
    let checked = kz(&["check", &day, &output]);
    assert!(checked.answer().contains(&format!("distance {},", last[1])), "{plan:?}");
}

fn numbers(line: &str) -> Vec<u64> {
    line.split(|c: char| !c.is_ascii_digit()).filter_map(|digits| digits.parse().ok()).collect()
}

#[test]
fn without_a_terminal_there_is_no_progress() {
    let ran = kz(&["plan", scratch::DAY_M]);
    assert_eq!(ran.err.lines().count(), 1);
    assert!(ran.err.starts_with("planned: "));
}

#[test]
fn a_day_without_stops_has_the_plan_of_no_words() {
    let scratch = Scratch::new();
    let day = scratch.words("day", &reference::worked_plans::NO_STOPS);
    for command in ["build", "plan"] {
        let ran = kz(&[command, &day]);
        assert_eq!((ran.status, ran.out.len()), (0, 0), "{ran:?}");
    }
    let empty = scratch.file("plan", b"");
    assert!(kz(&["check", &day, &empty]).answer().contains(": distance 0, "));
    for arguments in [["show", &day, &empty], ["chart", &day, &empty]] {
        kz(&arguments).answer();
    }
}

/// A run that may use so many kilobytes of memory, everything counted in.
fn within(kilobytes: u64, arguments: &[&str]) -> Ran {
    let limited = format!("ulimit -v {kilobytes} && exec \"$0\" \"$@\"");
    let mut bash = Command::new("bash");
    bash.args(["-c", &limited, env!("CARGO_BIN_EXE_kz")]).args(arguments);
    Ran::of(bash.output().expect("bash is there"))
}

#[test]
fn a_day_of_240_stops_is_planned_within_16_megabytes() {
    let scratch = Scratch::new();
    let words = day_of_many_short_rounds(&mut Random::new(1), 240, 15).words();
    let (day, text) = (scratch.words("day", &words), scratch.name("day.txt"));
    kz(&["unpack", &day, "-o", &text]).answer();
    for day in [&day, &text] {
        let ran = within(16_000, &["plan", day, "-o", &scratch.name("plan")]);
        assert!(ran.answer().ends_with("settled\n"), "{ran:?}");
    }
}

#[test]
fn the_sample_day_settles_within_a_second() {
    let begun = Instant::now();
    kz(&["demo"]).answer();
    assert!(begun.elapsed() < Duration::from_secs(1), "it took {:?}", begun.elapsed());
}

/// What a terminal of this kind shows of a run, where there is a `script` to lend it one.
fn on_a_terminal(kind: &str, arguments: &[&str]) -> Option<String> {
    let call = [&[env!("CARGO_BIN_EXE_kz")], arguments].concat().join(" ");
    let mut script = Command::new("script");
    let Ok(shown) = script.env("TERM", kind).args(["-qec", &call, "/dev/null"]).output() else {
        println!("there is no `script` here: nothing was shown on a terminal");
        return None;
    };
    Some(String::from_utf8_lossy(&shown.stdout).into_owned())
}

/// What goes before each step, and behind the last one.
const CLEARED: &str = "\r\x1b[K";

#[test]
fn a_terminal_shows_progress_which_is_cleared_and_words_as_lines() {
    let day = scratch::DAY_M;
    let Some(shown) = on_a_terminal("xterm", &["plan", day, "--k", "5"]) else { return };
    let steps: Vec<&str> = shown.split(CLEARED).collect();
    let [before, greedy, last, behind] = steps[..] else { panic!("{shown:?}") };
    assert_eq!(before, "");
    assert_eq!(greedy, "K 5: 0 trials, distance 35, 0 saved, 0 of 0 steps shorter");
    assert_eq!(last, "K 5: 6 trials, distance 35, 0 saved, 0 of 1 steps shorter");
    assert!(behind.starts_with("A0000001\r\n") && behind.contains("\nE0000000\r\n"), "{shown:?}");
    assert!(behind.contains("6 trials, settled"), "{shown:?}");
}

#[test]
fn progress_fits_a_terminal_of_80_columns() {
    let scratch = Scratch::new();
    let words = day_of_many_short_rounds(&mut Random::new(1), 240, 15).words();
    let (day, plan) = (scratch.words("day", &words), scratch.name("plan"));
    let Some(shown) = on_a_terminal("xterm", &["plan", &day, "-o", &plan]) else { return };
    let steps: Vec<&str> = shown.split(CLEARED).collect();
    let [_, steps @ .., behind] = &steps[..] else { panic!("{shown:?}") };
    assert!(steps.len() > 5 && behind.starts_with("planned: "), "{shown:?}");
    for step in steps {
        assert!(step.len() < 80 && step.ends_with(" steps shorter"), "{step:?}");
    }
}

#[test]
fn a_terminal_that_cannot_clear_a_line_shows_progress_only_where_it_is_asked_for() {
    let scratch = Scratch::new();
    let plan = scratch.name("plan");
    let call = ["plan", scratch::DAY_M, "--k", "5", "-o", &plan];
    for kind in ["dumb", ""] {
        let Some(shown) = on_a_terminal(kind, &call) else { return };
        assert!(shown.starts_with("planned: ") && !shown.contains('\x1b'), "{shown:?}");
    }
    let asked = [&call[..], &["--progress"]].concat();
    let Some(shown) = on_a_terminal("dumb", &asked) else { return };
    assert!(shown.starts_with("K 5: 0 trials, distance 35, "), "{shown:?}");
    assert!(shown.contains(" steps shorter\r\nK 5: 6 trials, "), "{shown:?}");
    assert!(!shown.contains('\x1b'), "{shown:?}");
}
