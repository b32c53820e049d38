//! Solomon instances: imported as the words of a day, and given to every command as they are.

use std::fs;

use reference::bytes;

use crate::page::read;
use crate::run::{command, kz, kz_fed, Ran};
use crate::scratch::{Scratch, DAY_M, HARBOUR, PLAN_M};

/// An instance of two customers.
const TINY: &str = "\
TINY

VEHICLE
NUMBER     CAPACITY
  2          100

CUSTOMER
CUST NO.   XCOORD.   YCOORD.    DEMAND   READY TIME   DUE DATE   SERVICE TIME

    0          0         0          0          0          100          0
    1          3         4         60          0           50          5
    2          1         1         50         10           90          7
";

/// Its day, by hand. From the depot and the tip, which stands there, customer 1 is 5 minutes away and
/// customer 2 the root of 2; between the two customers it is the root of 13.
const TINY_WORDS: [u32; 31] = [
    0x1000_0102,
    0x2000_0064,
    0x300F_4240,
    0x4000_00F0,
    0x5000_0064,
    0x605A_05A0,
    0x7000_0000,
    0x5000_0064,
    0x7000_0000,
    0x5000_0032,
    0x7000_0005,
    0x8000_003C,
    0x5000_A05A,
    0x7000_0007,
    0x8000_0032,
    0x9000_0000,
    0x9000_0000,
    0x9005_0032,
    0x9001_000E,
    0x9000_0000,
    0x9000_0000,
    0x9005_0032,
    0x9001_000E,
    0x9005_0032,
    0x9005_0032,
    0x9000_0000,
    0x9003_0024,
    0x9001_000E,
    0x9001_000E,
    0x9003_0024,
    0x9000_0000,
];

fn lines(words: &[u32]) -> String {
    words.iter().map(|word| format!("{word:08X}\n")).collect()
}

#[test]
fn an_instance_becomes_the_words_worked_out_by_hand() {
    let scratch = Scratch::new();
    let (text, day) = (scratch.file("tiny.txt", TINY.as_bytes()), scratch.name("tiny.day"));
    let said = "imported: TINY: stops 2, tips 1, words 31\n";
    let ran = kz(&["import", &text, "-o", &day]);
    assert_eq!((ran.answer(), ran.err.as_str()), (said, ""));
    assert_eq!(fs::read(&day).expect("it is written"), bytes::write(&TINY_WORDS));
    let piped = kz(&["import", &text]);
    assert_eq!((piped.out, piped.err.as_str()), (bytes::write(&TINY_WORDS), said));
    assert_eq!(kz(&["import", &text, "--hex"]).answer(), lines(&TINY_WORDS));
    let fed = kz_fed(&["import", "-", "--hex"], TINY.as_bytes());
    assert_eq!(fed.answer(), lines(&TINY_WORDS));
    let json = kz(&["import", &text, "--json"]).json();
    assert_eq!((json.at("stop_count").number(), json.at("tip_count").number()), (2, 1));
    let words: Vec<String> = TINY_WORDS.iter().map(|word| format!("{word:08X}")).collect();
    let told: Vec<&str> = json.at("day").list().iter().map(|word| word.text()).collect();
    assert_eq!(told, words);
}

#[test]
fn blanks_blank_lines_and_numbers_that_are_not_used_change_nothing() {
    let one_blank: String = TINY.lines().map(squeezed).collect();
    for text in [
        TINY.replace('\n', "\r\n"),
        TINY.trim_end().to_string(),
        format!("\n \t\r\n{TINY}\n\r\n \t"),
        format!("\u{FEFF}{TINY}"),
        one_blank.replace(' ', "\t"),
        one_blank,
        TINY.replace("  2          100", "  99999999999999999999999 00000100"),
        TINY.replace("0          0          0          100          0", "0 100001 0 100 241"),
        TINY.replace("TINY", "DAY 1").replace("NUMBER ", "VEHICLE").replace("CUST NO.", "CUSTOMER"),
    ] {
        assert_ne!(text, TINY);
        assert_eq!(kz_fed(&["import", "-", "--hex"], text.as_bytes()).answer(), lines(&TINY_WORDS));
    }
}

/// A line whose fields have one blank between them.
fn squeezed(line: &str) -> String {
    format!("{}\n", line.split_whitespace().collect::<Vec<_>>().join(" "))
}

#[test]
fn the_instance_of_the_documentation_is_the_one_worked_out_by_hand() {
    let page = read("docs/FORMAT.md");
    assert!(page.contains(&format!("\n```text\n{TINY}```\n")));
    let scratch = Scratch::new();
    scratch.file("tiny.txt", TINY.replace("  100\n", "  0\n").as_bytes());
    let ran = command(&["import", "tiny.txt"]).current_dir(scratch.name(".")).output();
    let ran = Ran::of(ran.expect("the program starts"));
    let said = ran.failure(1).trim_start_matches("kz: ").trim_end();
    assert!(page.replace('\n', " ").contains(&format!(": `{said}`.")), "{said}");
}

#[test]
fn an_instance_of_the_depot_alone_is_a_day_without_stops() {
    let depot: String = TINY.split_inclusive('\n').take(10).collect();
    let ran = kz_fed(&["import", "-", "--hex"], depot.as_bytes());
    let words = [&[0x1000_0100], &TINY_WORDS[1..9], &[0x9000_0000; 4]].concat();
    assert_eq!(ran.answer(), lines(&words));
}

/// What a command answers for a program.
#[track_caller]
fn answered(arguments: &[&str]) -> String {
    kz(&[arguments, &["--json"]].concat()).answer().to_string()
}

#[test]
fn every_command_takes_an_instance_as_its_imported_day() {
    let scratch = Scratch::new();
    let (day, plan) = (scratch.name("harbour.day"), scratch.name("harbour.plan"));
    let (greedy, alone) = (scratch.name("greedy.plan"), scratch.name("harbour.words"));
    kz(&["import", HARBOUR, "-o", &day]).answer();
    kz(&["build", &day, "-o", &greedy]).answer();
    let planned = kz(&["plan", HARBOUR, "-o", &plan]);
    assert!(planned.answer().starts_with("planned: HARBOUR: distance "), "{planned:?}");
    for (command, behind) in [
        ("plan", &[][..]),
        ("build", &[]),
        ("check", &[plan.as_str()]),
        ("vehicle", &[&plan, "1"]),
        ("same", &[&plan, &greedy]),
        ("show", &[&plan]),
        ("pack", &[]),
    ] {
        let of_text = answered(&[&[command, HARBOUR], behind].concat());
        assert_eq!(of_text, answered(&[&[command, day.as_str()], behind].concat()), "{command}");
        assert!(!of_text.contains("warning"), "the plan is of the same day: {of_text}");
    }
    assert_eq!(kz(&["pack", HARBOUR, "-o", &alone]).status, 0);
    assert_eq!(fs::read(&alone).ok(), fs::read(&day).ok());
    let text = fs::read(HARBOUR).expect("the sample is there");
    let fed = kz_fed(&["plan", "-", "--json"], &text);
    assert_eq!(fed.answer(), answered(&["plan", &day]));
}

#[test]
fn stops_have_the_numbers_of_customers_and_the_day_its_name_line() {
    let scratch = Scratch::new();
    let text = scratch.file("tiny.txt", TINY.replace("TINY", "  the \"tiny\" town ").as_bytes());
    let (plan, written) = (scratch.name("plan"), scratch.name("written.txt"));
    kz(&["plan", &text, "-o", &plan]).answer();
    let shown = kz(&["show", &text]);
    assert!(shown.answer().starts_with("the 'tiny' town\n\nload        100 kg\n"), "{shown:?}");
    assert!(shown.text().contains("\nstop 2    stop 2   "), "{shown:?}");
    let chart = kz(&["chart", &text, &plan]);
    assert!(chart.answer().contains(">the 'tiny' town<"), "{chart:?}");
    kz(&["unpack", &text, "-o", &written]).answer();
    assert!(fs::read_to_string(&written).expect("a text").starts_with("day \"the 'tiny' town\"\n"));
    assert_eq!(kz(&["pack", &written, "--hex"]).answer(), lines(&TINY_WORDS));
}

#[test]
fn a_plan_that_comes_late_names_the_line_of_its_customer() {
    let scratch = Scratch::new();
    let text = scratch.file("tiny.txt", TINY.as_bytes());
    let plan = scratch.name("plan");
    kz(&["build", &text, "--hex", "-o", &plan]).answer();
    fs::remove_file(format!("{plan}.made-for")).expect("it is noted which day the plan is for");
    let late = TINY.replace(" 0           50 ", " 0            4 ");
    let late = scratch.file("late.txt", late.as_bytes());
    let ran = kz(&["check", &late, &plan]);
    let said = ran.failure(1);
    assert!(said.starts_with("kz: stop 1 is reached by vehicle 1 at 00:"), "{said}");
    assert!(said.ends_with(&format!("; stop 1 is on line 11 of {late})\n")), "{said}");
}

#[test]
fn what_is_no_instance_is_told_with_what_to_do() {
    let scratch = Scratch::new();
    let matrix = kz(&["unpack", DAY_M]).text().to_string();
    let text = scratch.file("day.txt", matrix.as_bytes());
    let hex = scratch.file("plan.hex", &kz(&["build", DAY_M, "--hex"]).out);
    let pdf = scratch.file("a.pdf", b"%PDF-1.7\n");
    let utf16: Vec<u8> = TINY.encode_utf16().flat_map(u16::to_le_bytes).collect();
    let utf16 = scratch.file("utf16.txt", &utf16);
    let words = "these are words and no text; every command that takes a DAY takes the words of a \
                 day as they are";
    let day =
        "this is a day in text; kz pack writes its words, and every command that takes a DAY \
               takes it as it is";
    for (file, why) in [
        (text.as_str(), day),
        (DAY_M, words),
        (PLAN_M, words),
        (&hex, words),
        (&pdf, "this is a PDF; a Solomon instance is plain text"),
        (&utf16, "this text is saved as UTF-16: save it as UTF-8"),
    ] {
        let ran = kz(&["import", file]);
        assert_eq!(ran.failure(2), format!("kz: {file} can't be read: {why}\n"));
    }
    let ran = kz(&["check", DAY_M, HARBOUR]);
    let wanted = "a plan is wanted here, which kz plan and kz build write";
    assert_eq!(
        ran.failure(2),
        format!(
            "kz: {HARBOUR} can't be read: line 1, column 1: this is a Solomon instance; {wanted}\n"
        )
    );
}

#[test]
fn a_day_in_text_stays_one_whatever_it_contains() {
    let scratch = Scratch::new();
    let matrix = kz(&["unpack", DAY_M]).text().replace("\"stop 1\"", "VEHICLE");
    let named = matrix.replacen("day\n", "# VEHICLE\nday VEHICLE\n#VEHICLE\n", 1);
    let file = scratch.file("day.txt", named.as_bytes());
    assert_eq!(kz(&["pack", &file]).out, fs::read(DAY_M).expect("it is there"));
    let slip = matrix.replacen("day\n", "\nDay one\n\nVEHICLE\n", 1);
    let file = scratch.file("slip.txt", slip.as_bytes());
    let ran = kz(&["show", &file]);
    assert_eq!(ran.status, 2);
    for fault in [
        "line 2, column 1: write day in small letters, not \"Day\"\n",
        "line 4, column 1: a line begins with load, load-a-day, stops-a-day, depot, rest, tip, stop \
         or legs, not \"VEHICLE\"\n",
    ] {
        assert!(ran.err.contains(fault), "{ran:?}");
    }
}
