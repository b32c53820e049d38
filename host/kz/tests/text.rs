//! The text form of a day: what it gives, and that every accepted day can be written and read back.

mod texts;

use std::collections::HashSet;

use kz::day::{Day, Leg};
use kz::form::{self, Form};
use kz::text::{no_plan, of_bytes, parse, write, Names, TextError};
use kz::words::{self, NoWords};
use reference::random::Random;
use reference::samples::{random_day, random_size};
use reference::worked::DAY_M;
use texts::{COORDINATES, DEGREES, MATRIX};

#[test]
fn day_m_in_text_gives_its_words() {
    let day = parse(MATRIX).expect("day M");
    assert_eq!(day.words, DAY_M);
    assert_eq!([day.names.day(), day.names.tip(1)], ["M", "yard"]);
    assert_eq!([day.names.stop(1), day.names.stop(2)], ["first stop", "second"]);
    let as_windows_writes = format!("\u{FEFF}{}", MATRIX.replace('\n', "\r\n"));
    assert_eq!(parse(&as_windows_writes), Ok(day));
}

/// The days in docs/FORMAT.md, which stand between ```text and ```.
fn documented() -> Vec<String> {
    let format = include_str!("../../../docs/FORMAT.md");
    let parts = format.split("```text\n").skip(1).filter(|part| part.starts_with("day"));
    parts.map(|part| part.split("```").next().unwrap_or("").to_string()).collect()
}

#[test]
fn the_examples_of_the_documentation_are_days() {
    let days: Vec<Vec<u32>> = documented()
        .iter()
        .map(|text| parse(text).unwrap_or_else(|error| panic!("{error}\n{text}")).words)
        .collect();
    assert_eq!(days[0], DAY_M);
    assert_eq!(days.len(), 3);
    let leg = |day: &[u32], to| {
        let leg = Day::of(day).leg(0, to);
        (leg.minutes, leg.distance)
    };
    let legs = |day: &[u32]| (leg(day, 1), leg(day, 2));
    assert_eq!(legs(&days[1]), ((12, 5_176), (10, 3_903)), "as the documentation says");
    assert_eq!(
        legs(&days[2]),
        ((96, 9_521), (104, 10_325)),
        "76,160.3 m and 82,595.0 m, times 1.25"
    );
}

#[test]
fn coordinates_give_legs_in_metres_and_minutes() {
    let named = parse(COORDINATES).expect("a day");
    assert_eq!(named.names.day(), "Tuesday, \u{e4} day");
    let day = Day::of(&named.words);
    assert_eq!((day.stops[0].visit.window.opening, day.stops[0].visit.window.closing), (425, 1440));
    // 5,000 m straight, times 1.2, at 500 m a minute.
    assert_eq!(day.leg(0, 2), Leg { minutes: 12, distance: 6_000 });
    assert_eq!(day.leg(2, 0), day.leg(0, 2));
    // The root of 1,500 squared and 250 squared is 1,520.69, times 1.2 is 1,824.83.
    assert_eq!(day.leg(1, 0), Leg { minutes: 4, distance: 1_825 });
    assert_eq!(day.leg(1, 1), Leg::default());
}

#[test]
fn every_accepted_day_is_written_and_read_back() {
    let mut random = Random::new(5);
    for _ in 0..150 {
        let (stops, tips) = random_size(&mut random);
        let words = random_day(&mut random, stops, tips).words();
        let names = Names::numbered(stops, tips);
        let text = write(&words, &names);
        assert_eq!(form::of(text.as_bytes()), Form::Text);
        let read = parse(&text).unwrap_or_else(|error| panic!("{error}\n{text}"));
        assert_eq!(read.words, words);
        assert_eq!(read.names, names);
    }
    for name in ["Caf\u{e9}", "\"two words\"", "\"#1\"", "\"\u{201C}odd\u{201D}\"", "6-10", "'t"] {
        let named = parse(&COORDINATES.replace("Caf\u{e9}", name)).expect(name);
        assert_eq!(parse(&write(&named.words, &named.names)), Ok(named));
    }
}

/// Characters put in, taken out and replaced: whatever then stands there, it has faults with a
/// line and a column of the text, or is a day that the library accepts.
#[test]
fn what_is_read_from_any_text_is_accepted() {
    let mut random = Random::new(6);
    let (mut days, mut faulty) = (0, 0);
    for round in 0..20_000 {
        let mut text: Vec<char> = [MATRIX, COORDINATES, DEGREES][round % 3].chars().collect();
        for _ in 0..=random.below(3) {
            let at = random.below(text.len());
            let put = random.one_of(&[
                '0', '1', '9', ' ', '\n', '-', '/', ':', '.', '"', '#', 'k', ',', '\u{201C}',
                '\u{7}',
            ]);
            match random.below(3) {
                0 => text.insert(at, put),
                1 => drop(text.remove(at)),
                _ => text[at] = put,
            }
        }
        let text: String = text.into_iter().collect();
        match parse(&text) {
            Ok(day) => {
                assert!(kazhuvendi::judge(&day.words).is_ok(), "{text}");
                assert_eq!(parse(&write(&day.words, &day.names)), Ok(day));
                days += 1;
            }
            Err(faults) => {
                assert!((1..=20).contains(&faults.told().len()));
                assert!(faults.told().iter().all(|fault| stands_in(fault, &text)), "{text}");
                faulty += 1;
            }
        }
    }
    assert!(days > 1_000 && faulty > 1_000, "{days} days and {faulty} faulty texts");
}

/// Whether a fault stands on a line of a text, or right behind it.
fn stands_in(fault: &TextError, text: &str) -> bool {
    let line = text.lines().nth(fault.line - 1).unwrap_or("");
    (1..=line.chars().count() + 1).contains(&fault.column)
}

/// Bytes put in, taken out and replaced: whatever they are then, none of it panics.
#[test]
fn any_bytes_are_words_a_day_or_faults() {
    let mut random = Random::new(8);
    let words = reference::bytes::write(&DAY_M);
    let lines: String = DAY_M.iter().map(|word| format!("{word:08X}\n")).collect();
    let mut forms = HashSet::new();
    for round in 0..20_000 {
        let samples = [MATRIX.as_bytes(), DEGREES.as_bytes(), lines.as_bytes(), &words];
        let mut bytes = samples[round % 4].to_vec();
        bytes.truncate(random.below(bytes.len() + 1));
        for _ in 0..=random.below(3) {
            let at = random.below(bytes.len() + 1);
            bytes.insert(at, random.below(256) as u8);
        }
        forms.insert(form::of(&bytes));
        if let Err(NoWords::Text) = words::read(&bytes) {
            assert!(!no_plan(&bytes).message.is_empty());
            assert!(of_bytes(&bytes).map_or_else(|faults| !faults.told().is_empty(), |_| true));
        }
    }
    assert_eq!(forms, HashSet::from([Form::Raw, Form::Lines, Form::Text]));
}

#[test]
fn stops_and_tips_are_counted() {
    let many = |what: &str, count: usize, behind: &str| -> String {
        (0..count).map(|k| format!("{what} {what}{k} 0-9 min 1 min {behind}at 0 {k}\n")).collect()
    };
    let head = "day\nload 1 kg\nload-a-day 1 kg\nstops-a-day 1\ndepot 0-9 min at 0 0\nrest 0-9 min 1 min\n";
    let legs = "legs by coordinates m 30 km/h detour 1";
    let day = |tips, stops| {
        parse(&format!("{head}{}{}{legs}", many("tip", tips, ""), many("stop", stops, "1 kg ")))
    };
    assert!(day(15, 240).is_ok_and(|day| kazhuvendi::judge(&day.words).is_ok()));
    let message = |tips, stops| day(tips, stops).expect_err("too many").to_string();
    assert_eq!(message(16, 0), "line 22, column 1: a day has at most 15 tips");
    assert_eq!(message(1, 241), "line 248, column 1: a day has at most 240 stops");
}

#[test]
fn text_is_told_from_words() {
    for text in [MATRIX, COORDINATES, "day", "\u{FEFF}day M", "\r\n # \"\n\tday# M"] {
        assert_eq!(form::of(text.as_bytes()), Form::Text, "{text}");
    }
    let hexadecimal: String = DAY_M.iter().map(|word| format!("{word:08X}\n")).collect();
    assert_eq!(form::of(hexadecimal.as_bytes()), Form::Lines);
    let mut random = Random::new(7);
    for _ in 0..500 {
        let (stops, tips) = random_size(&mut random);
        let day = random_day(&mut random, stops, tips);
        assert_eq!(form::of(&reference::bytes::write(&day.words())), Form::Raw);
    }
}
