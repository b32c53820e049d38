//! Days and plans in all their forms, from files and through pipes.

use reference::bytes;
use reference::random::Random;
use reference::samples::{random_day, random_size};
use reference::worked::DAY_M;
use reference::worked_plans::PLAN_M;

use crate::run::{kz, kz_fed};
use crate::scratch::{self, Scratch};

fn lines(words: &[u32]) -> String {
    words.iter().map(|word| format!("{word:08x}\r\n")).collect()
}

#[test]
fn words_are_read_from_raw_bytes_and_from_lines() {
    let scratch = Scratch::new();
    let days = [scratch::DAY_M.to_string(), scratch.file("day.hex", lines(&DAY_M).as_bytes())];
    let plans = [scratch::PLAN_M.to_string(), scratch.file("plan.hex", lines(&PLAN_M).as_bytes())];
    for day in &days {
        for plan in &plans {
            let ran = kz(&["check", day, plan]);
            let lawful = "distance 35, vehicles 1, stops served 2, left out 0";
            assert_eq!(ran.answer(), format!("lawful: {day}: {lawful}\n"));
        }
    }
}

#[test]
fn standard_input_stands_for_a_day_or_a_plan() {
    let (day, plan) = (bytes::write(&DAY_M), bytes::write(&PLAN_M));
    assert!(kz_fed(&["check", "-", scratch::PLAN_M], &day).answer().starts_with("lawful"));
    assert!(kz_fed(&["check", scratch::DAY_M, "-"], &plan).answer().starts_with("lawful"));
    let same = kz_fed(&["same", scratch::DAY_M, scratch::PLAN_M, "-"], lines(&PLAN_M).as_bytes());
    assert_eq!(same.answer(), "the same rounds\n");
}

#[test]
fn words_go_through_a_pipe_raw_or_as_lines() {
    for arguments in [
        &["build", scratch::DAY_M][..],
        &["build", scratch::DAY_M, "-o", "-"],
        &["build", "--hex", scratch::DAY_M],
        &["plan", scratch::DAY_M, "--hex", "--output=-"],
        &["plan", "--k=5", scratch::DAY_M, "-o-"],
        &["vehicle", scratch::DAY_M, scratch::PLAN_M, "1", "-o", "-"],
    ] {
        let made = kz(arguments);
        assert_eq!(made.status, 0, "{made:?}");
        assert!(!made.err.is_empty(), "what the plan comes to is said beside it");
        if arguments.contains(&"--hex") {
            assert_eq!(made.text(), lines(&PLAN_M).replace('\r', "").to_uppercase());
        } else {
            assert_eq!(made.out, bytes::write(&PLAN_M));
        }
        let checked = kz_fed(&["check", scratch::DAY_M, "-"], &made.out);
        assert!(checked.answer().contains(": distance 35, "));
    }
}

#[test]
fn a_day_goes_to_text_and_back_to_the_same_words() {
    let scratch = Scratch::new();
    let mut random = Random::new(6);
    let mut days = vec![DAY_M.to_vec()];
    days.extend((0..12).map(|_| {
        let (stops, tips) = random_size(&mut random);
        random_day(&mut random, stops.min(40), tips).words()
    }));
    for words in days {
        let (day, text) = (scratch.words("day", &words), scratch.name("day.txt"));
        let unpacked = kz(&["unpack", &day, "-o", &text]);
        assert!(unpacked.answer().starts_with("unpacked: stops "));
        assert_eq!(kz(&["pack", &text]).out, bytes::write(&words));
        assert_eq!(
            kz(&["pack", &text, "--hex"]).text().to_lowercase(),
            lines(&words).replace('\r', "")
        );
        // From words to words, and from text to the same text.
        assert_eq!(kz(&["pack", &day]).out, bytes::write(&words));
        let written = std::fs::read(&text).expect("the text is there");
        assert_eq!(kz(&["unpack", &text]).out, written);
        assert_eq!(kz_fed(&["pack", "-"], &written).out, bytes::write(&words));
    }
}

#[test]
fn every_command_takes_a_day_in_text() {
    let scratch = Scratch::new();
    let text = scratch.name("day.txt");
    kz(&["unpack", scratch::DAY_M, "-o", &text]);
    let plan = scratch::PLAN_M;
    for (command, behind) in [
        ("check", &[plan][..]),
        ("build", &[]),
        ("plan", &[]),
        ("vehicle", &[plan, "1"]),
        ("same", &[plan, plan]),
        ("show", &[]),
        ("show", &[plan]),
        ("chart", &[plan]),
        ("pack", &[]),
        ("unpack", &[]),
    ] {
        let of_text = kz(&[&[command, text.as_str()], behind].concat());
        let of_words = kz(&[&[command, scratch::DAY_M], behind].concat());
        assert_eq!(of_text.status, 0, "{command}: {of_text:?}");
        // The day has no name, so it is called by its file.
        let renamed = |said: &str| said.replace(scratch::DAY_M, &text);
        assert_eq!(of_text.err, renamed(&of_words.err), "{command}");
        if command == "check" {
            assert_eq!(of_text.text(), renamed(of_words.text()));
        } else {
            assert_eq!(of_text.out, of_words.out, "{command}");
        }
    }
}

#[test]
fn names_of_a_text_are_shown() {
    let scratch = Scratch::new();
    let text = kz(&["unpack", scratch::DAY_M]).text().replace("\"stop 2\"", "\"Baker & Söhne\"");
    let day = scratch.file("day.txt", text.as_bytes());
    for behind in [&["show", &day][..], &["show", &day, scratch::PLAN_M], &["unpack", &day]] {
        assert!(kz(behind).answer().contains("Baker & Söhne"), "{behind:?}");
    }
    let chart = kz(&["chart", &day, scratch::PLAN_M]);
    assert!(chart.answer().contains("Baker &amp; Söhne"));
    let shown = kz(&["show", &day, scratch::PLAN_M, "--json"]).json();
    let entries = shown.at("sheets").list()[0].at("entries").list().to_vec();
    assert!(entries.iter().any(|entry| entry.at("at").text() == "Baker & Söhne"));
}
