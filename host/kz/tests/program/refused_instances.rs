//! Solomon instances that are refused: exit status 1, and one line that says what belongs at which
//! byte, line and column.

use crate::run::{kz, kz_fed};
use crate::scratch::Scratch;

const TINY: &str = "\
TINY

VEHICLE
NUMBER CAPACITY
2 100

CUSTOMER
CUST NO. XCOORD. YCOORD. DEMAND READY TIME DUE DATE SERVICE TIME

0 20 21 0 30 100 0
1 3 4 60 31 50 5
2 1 1 50 10 90 7
";

/// The byte at this line and column of a text of plain letters.
fn byte_at(text: &str, line: usize, column: usize) -> u64 {
    let before: usize = text.split_inclusive('\n').take(line - 1).map(str::len).sum();
    (before + column - 1) as u64
}

/// Holds that a text is refused so, for a person and for a program, by import and as a day.
#[track_caller]
fn refused(text: &str, number: u64, line: usize, column: usize, sentence: &str) {
    let scratch = Scratch::new();
    let file = scratch.file("given.txt", text.as_bytes());
    let byte = byte_at(text, line, column);
    let spot = format!("byte {byte}, line {line}, column {column} of");
    let said = |file: &str| format!("kz: {sentence} (refusal {number}, {spot} {file})\n");
    assert_eq!(kz(&["import", &file]).failure(1), said(&file));
    let fed = kz_fed(&["import", "-"], text.as_bytes());
    assert_eq!(fed.failure(1), said("standard input"));
    let json = kz(&["import", &file, "--json"]);
    assert_eq!((json.status, json.err.as_str()), (1, ""));
    let json = json.json();
    let refused = json.at("refused");
    let told = ["number", "place", "line", "column"].map(|name| refused.at(name).number());
    assert_eq!(told, [number, byte, line as u64, column as u64]);
    assert_eq!(refused.at("sentence").text(), sentence);
    // Every command knows an instance by the line VEHICLE.
    if text.contains("\nVEHICLE\n") {
        assert_eq!(kz(&["plan", &file]).failure(1), said(&file));
    }
}

/// A part of the instance that stands there once, what replaces it, and how it is then refused.
type Fault = (&'static str, &'static str, u64, usize, usize, &'static str);

const FAULTS: &[Fault] = &[
    ("VEHICLE", "Vehicle", 17, 3, 1, "the word VEHICLE is expected here, not \"Vehicle\""),
    ("VEHICLE", "VEHICLE 5", 17, 3, 9, "nothing more is expected on this line, not \"5\""),
    ("TINY\n", "", 17, 3, 1, "the word VEHICLE is expected here, not \"NUMBER\""),
    (
        "NUMBER CAPACITY\n",
        "",
        17,
        6,
        1,
        "the vehicle number must be a whole number, not \"CUSTOMER\"",
    ),
    ("2 100", "two 100", 17, 5, 1, "the vehicle number must be a whole number, not \"two\""),
    ("2 100", "2", 17, 5, 2, "the capacity is missing"),
    ("2 100", "2 \t", 17, 5, 4, "the capacity is missing"),
    ("2 100", "2 1OO", 17, 5, 3, "the capacity must be a whole number, not \"1OO\""),
    ("2 100", "2 100 100", 17, 5, 7, "nothing more is expected on this line, not \"100\""),
    ("2 100", "2 0", 18, 5, 3, "the capacity must be 1 to 100000, not 0"),
    ("2 100", "2 100001", 18, 5, 3, "the capacity must be 1 to 100000, not 100001"),
    ("CUSTOMER", "CUSTOMERS", 17, 7, 1, "the word CUSTOMER is expected here, not \"CUSTOMERS\""),
    (
        "CUSTOMER",
        "CUSTOMER CUSTOMER",
        17,
        7,
        10,
        "nothing more is expected on this line, not \"CUSTOMER\"",
    ),
    (
        "0 20 21",
        "1 20 21",
        17,
        10,
        1,
        "the first line of numbers is the depot's, with the number 0, not 1",
    ),
    ("0 20 21", "- 20 21", 17, 10, 1, "the customer number must be a whole number, not \"-\""),
    ("20 21", "1001 21", 18, 10, 3, "the x coordinate of the depot must be 0 to 1000, not 1001"),
    (
        "20 21 0",
        "20 21 +0",
        17,
        10,
        9,
        "the demand of the depot must be a whole number, not \"+0\"",
    ),
    (
        "30 100 0",
        "30 29 0",
        18,
        10,
        14,
        "the due date of the depot, 29, is before the ready time, 30",
    ),
    (
        "30 100 0",
        "30 100 x",
        17,
        10,
        18,
        "the service time of the depot must be a whole number, not \"x\"",
    ),
    (
        "1 3 4",
        "2 3 4",
        17,
        11,
        1,
        "customer 1 comes next, not 2: customers are numbered without a gap",
    ),
    (
        "2 1 1",
        "3 1 1",
        17,
        12,
        1,
        "customer 2 comes next, not 3: customers are numbered without a gap",
    ),
    (
        "3 4",
        "3.5 4",
        17,
        11,
        3,
        "the x coordinate of customer 1 must be a whole number, not \"3.5\"",
    ),
    ("3 4", "3 -4", 17, 11, 5, "the y coordinate of customer 1 must be a whole number, not \"-4\""),
    ("3 4", "3 1001", 18, 11, 5, "the y coordinate of customer 1 must be 0 to 1000, not 1001"),
    ("60 31", "100001 31", 18, 11, 7, "the demand of customer 1 must be 0 to 100000, not 100001"),
    ("31 50", "1441 50", 18, 11, 10, "the ready time of customer 1 must be 0 to 1440, not 1441"),
    (
        "31 50",
        "31 030",
        18,
        11,
        13,
        "the due date of customer 1, 030, is before the ready time, 31",
    ),
    ("31 50", "31 1441", 18, 11, 13, "the due date of customer 1 must be 0 to 1440, not 1441"),
    ("50 5", "50 241", 18, 11, 16, "the service time of customer 1 must be 0 to 240, not 241"),
    (
        "50 5",
        "50 18446744073709551621",
        18,
        11,
        16,
        "the service time of customer 1 must be 0 to 240, not 18446744073709551621",
    ),
    ("50 5", "50", 17, 11, 15, "the service time of customer 1 is missing"),
    ("50 5", "50 5 0", 17, 11, 18, "nothing more is expected on this line, not \"0\""),
    ("1 3 4 60 31 50 5", "1", 17, 11, 2, "the x coordinate of customer 1 is missing"),
    ("90 7\n", "90", 17, 12, 15, "the service time of customer 2 is missing"),
    (
        "90 7\n",
        "90 7\n\nEND\n",
        17,
        14,
        1,
        "the customer number must be a whole number, not \"END\"",
    ),
];

#[test]
fn each_fault_is_named_where_it_stands() {
    for (part, instead, number, line, column, sentence) in FAULTS {
        assert_eq!(TINY.matches(part).count(), 1, "{part} is one part of the text");
        refused(&TINY.replace(part, instead), *number, *line, *column, sentence);
    }
}

#[test]
fn the_faults_of_the_documentation_are_said_so() {
    let format = crate::page::read("docs/FORMAT.md");
    let rows = format.split("| Number | What is said of an instance |\n|---|---|\n").nth(1);
    let rows = rows.expect("the faults").lines().take_while(|row| row.starts_with('|'));
    let said: Vec<(&str, &str)> = rows
        .map(|row| (row[2..].split(' ').next().unwrap_or(""), row.split('`').nth(1).unwrap_or("")))
        .collect();
    assert!(said.len() > 8, "{said:?}");
    for (number, said) in said {
        let is_it = |fault: &&Fault| fault.2.to_string() == number && fault.5 == said;
        assert!(FAULTS.iter().any(|fault| is_it(&fault)), "{number}: {said}");
    }
}

#[test]
fn a_line_that_is_missing_is_named_at_the_end_of_the_text() {
    let nothing = "there is nothing here; a Solomon instance begins with its name";
    refused("", 17, 1, 1, nothing);
    refused(" \n\t", 17, 2, 2, nothing);
    for (there, line, column, missing) in [
        (1, 2, 1, "the line VEHICLE"),
        (2, 3, 1, "the line VEHICLE"),
        (3, 4, 1, "the line of column names behind VEHICLE"),
        (4, 5, 1, "the line with the vehicle number and the capacity"),
        (5, 6, 1, "the line CUSTOMER"),
        (7, 8, 1, "the line of column names behind CUSTOMER"),
        (9, 10, 1, "the line of the depot, which has the number 0,"),
    ] {
        let text: String = TINY.split_inclusive('\n').take(there).collect();
        refused(&text, 17, line, column, &format!("{missing} is missing"));
    }
    refused("TINY", 17, 1, 5, "the line VEHICLE is missing");
    refused("TINY\nVEHICLE\nCOLUMNS\n2 100", 17, 4, 6, "the line CUSTOMER is missing");
}

#[test]
fn a_carriage_return_belongs_to_its_line() {
    let windows = |text: &str| text.replace('\n', "\r\n");
    let short = windows(&TINY.replace("50 5\n", "50\n"));
    refused(&short, 17, 11, 16, "the service time of customer 1 is missing");
    let large = windows(&TINY.replace("50 5\n", "50 500\n"));
    refused(&large, 18, 11, 16, "the service time of customer 1 must be 0 to 240, not 500");
}

#[test]
fn customer_241_is_one_too_many() {
    let customers = |most: usize| -> String {
        (3..=most).map(|number| format!("{number} 1 1 1 0 100 1\n")).collect()
    };
    let text = format!("{TINY}{}", customers(240));
    let said = kz_fed(&["import", "-", "-o", "/dev/null"], text.as_bytes());
    assert_eq!(said.answer(), "imported: TINY: stops 240, tips 1, words 59293\n");
    let sentence = "a day has at most 240 stops, and this line has customer 241";
    refused(&format!("{TINY}{}", customers(241)), 18, 251, 1, sentence);
}

/// Columns count characters, also where the text is no UTF-8, and no mark.
#[test]
fn columns_count_characters() {
    let spot = |text: &[u8]| kz_fed(&["import", "-"], text).failure(1).to_string();
    let text = TINY.replace("2 100", "\u{e9}\u{e9} 100");
    assert!(spot(text.as_bytes())
        .contains("not \"\u{e9}\u{e9}\" (refusal 17, byte 30, line 5, column 1 "));
    let said = spot(b"\xEF\xBB\xBFTINY\nVEHICLE caf\xE9 \x1B[2J\n");
    assert_eq!(
        said,
        "kz: nothing more is expected on this line, not \"caf\u{FFFD}\" (refusal 17, byte 16, line 2, \
         column 9 of standard input)\n"
    );
    assert!(spot(b"\xEF\xBB\xBFTINY")
        .ends_with("(refusal 17, byte 7, line 1, column 5 of standard input)\n"));
    let long = TINY.replace("100", &"x".repeat(1_000));
    assert!(spot(long.as_bytes()).contains("xxxx\u{2026}\" (refusal 17, byte 32, "), "{long}");
}
