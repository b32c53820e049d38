//! Texts that are broken, or no days and plans at all: exit status 2, and what to do.

use crate::run::{kz, Ran};
use crate::scratch::{Scratch, DAY_M, PLAN_M};

/// Day M as text.
fn day_m() -> String {
    kz(&["unpack", DAY_M]).text().to_string()
}

/// What is said of a file that is given as a day, or as a plan, behind the file's name.
#[track_caller]
fn said(ran: &Ran, file: &str) -> String {
    assert_eq!((ran.status, ran.text()), (2, ""), "{ran:?}");
    let said = ran.err.strip_prefix(&format!("kz: {file} can't be read: "));
    said.unwrap_or_else(|| panic!("{ran:?}")).to_string()
}

#[track_caller]
fn day_said(bytes: &[u8]) -> String {
    let scratch = Scratch::new();
    let file = scratch.file("given", bytes);
    let of_show = said(&kz(&["show", &file]), &file);
    assert_eq!(said(&kz(&["check", &file, PLAN_M]), &file), of_show);
    of_show
}

#[track_caller]
fn plan_said(bytes: &[u8]) -> String {
    let scratch = Scratch::new();
    let file = scratch.file("given", bytes);
    said(&kz(&["check", DAY_M, &file]), &file)
}

#[test]
fn a_day_with_a_slip_is_still_read_as_text() {
    let day = day_m();
    let slip = |part: &str, instead: &str| day_said(day.replacen(part, instead, 1).as_bytes());
    assert_eq!(slip("day", "Day"), "line 1, column 1: write day in small letters, not \"Day\"\n");
    assert_eq!(
        slip("day\n", "\n"),
        "line 3, column 1: a day begins with the word day, not \"load\": put a line with day and its \
         name before this one\n"
    );
    assert_eq!(slip("day\n", "day \"Tue\n"), "line 1, column 5: the closing quote is missing\n");
    assert_eq!(slip("\"stop 1\"", "\"stop 1"), "line 12, column 6: the closing quote is missing\n");
    assert_eq!(
        slip("\"stop 1\"", "\u{201C}stop 1\u{201D}"),
        "line 12, column 6: a name stands between straight quotes, \" and \", not \u{201C}\n"
    );
    assert_eq!(
        slip("\"stop 1\"", "stop 1"),
        "line 12, column 6: a name of several words needs quotes: write \"stop 1\"\n"
    );
    assert_eq!(
        slip(" 60 kg", " 60kg"),
        "line 12, column 42: a blank stands between a number and its unit: write 60 kg, not \"60kg\"\n"
    );
}

#[test]
fn a_day_in_another_encoding_is_told() {
    let day = day_m().replace("stop 2", "Caf\u{e9}");
    let latin: Vec<u8> = day.chars().map(|letter| letter as u32 as u8).collect();
    assert_eq!(
        day_said(&latin),
        "line 13, column 10: the byte E9 is no UTF-8; the text seems to be saved as Latin-1 or \
         Windows-1252: save it as UTF-8\n"
    );
    let utf16: Vec<u8> = day.encode_utf16().flat_map(u16::to_le_bytes).collect();
    let said = "line 1, column 1: this text is saved as UTF-16: save it as UTF-8\n";
    assert_eq!(day_said(&utf16), said);
    assert_eq!(day_said(&[b"\xFF\xFE", utf16.as_slice()].concat()), said);
    let scratch = Scratch::new();
    let marked = scratch.file("day.txt", format!("\u{FEFF}{day}").as_bytes());
    assert_eq!(kz(&["show", &marked]).status, 0, "the mark of UTF-8 does no harm");
}

#[test]
fn files_of_other_programs_are_told() {
    let csv = "name;opens;closes;kg\r\nBaker;06:00;10:00;40\r\n";
    assert_eq!(
        day_said(csv.as_bytes()),
        "line 1, column 1: this looks like a table that a spreadsheet wrote (CSV), not like a day in \
         text; the guide shows what a day in text looks like\n"
    );
    let xlsx = b"PK\x03\x04\x14\x00\x06\x00\x08\x00\x00\x00!\x00b\xee\x9dh^\x01\x00\x00";
    let zip = "this is a zip file, as spreadsheets are (xlsx, ods); ";
    assert_eq!(
        day_said(xlsx),
        format!("{zip}a day is plain text in UTF-8: the guide shows what one looks like\n")
    );
    assert_eq!(
        plan_said(xlsx),
        format!("{zip}a plan is wanted here, which kz plan and kz build write\n")
    );
}

#[test]
fn a_text_that_is_no_plan_is_told() {
    let wanted = "a plan is wanted here, which kz plan and kz build write";
    let day = "line 1, column 1: this is a day in text; ";
    assert_eq!(plan_said(day_m().as_bytes()), format!("{day}{wanted}\n"));
    let json = kz(&["plan", DAY_M, "--json"]);
    let is_json = "line 1, column 1: this looks like JSON; ";
    assert_eq!(plan_said(&json.out), format!("{is_json}{wanted}\n"));
    let other = "line 2, column 1: \"Vehicle\" is no word of eight hexadecimal digits; ";
    assert_eq!(plan_said(b"\nVehicle 1: stop 5\n"), format!("{other}{wanted}\n"));
    let utf16: Vec<u8> = "A0000001\r\n".encode_utf16().flat_map(u16::to_le_bytes).collect();
    assert_eq!(
        plan_said(&[b"\xFF\xFE", utf16.as_slice()].concat()),
        "line 1, column 1: this text is saved as UTF-16: save it as UTF-8\n"
    );
    assert_eq!(
        plan_said(b"A0000001\nB000000G\n"),
        "line 2, column 1: \"B000000G\" is no word of eight hexadecimal digits\n"
    );
}

#[test]
fn all_faults_of_a_text_are_told_to_people_and_to_programs() {
    let scratch = Scratch::new();
    let text = day_m().replace("00:00-00:50", "0-50").replace("-01:40\n", "-1:4\n");
    let file = scratch.file("day.txt", text.as_bytes());
    let first = "line 7, column 13: a time is written as 07:35, not \"1:4\"";
    let bare = "\"0-50\" has neither colons nor \"min\" behind it: write 00:00-00:50, or 0-50 min";
    for command in ["pack", "show", "plan"] {
        assert_eq!(
            said(&kz(&[command, &file]), &file),
            format!("{first}\n    line 12, column 16: {bare}\n    line 13, column 16: {bare}\n")
        );
    }
    let ran = kz(&["show", &file, "--json"]);
    assert_eq!((ran.status, ran.err.as_str()), (2, ""));
    let json = ran.json();
    assert_eq!(json.at("error").text(), format!("{file} can't be read: {first}"));
    assert_eq!(json.at("more").number(), 0);
    let faults = json.at("faults").list();
    assert_eq!(faults.len(), 3);
    assert_eq!((faults[2].at("line").number(), faults[2].at("column").number()), (13, 16));
    assert_eq!(faults[2].at("message").text(), bare);
}

#[test]
fn of_many_faults_twenty_are_told() {
    let scratch = Scratch::new();
    let stops: String =
        (1..=30).map(|stop| format!("stop s{stop} 6-10 1 min 1 kg at 0 0\n")).collect();
    let text = format!(
        "day\nload 9 kg\nload-a-day 9 kg\nstops-a-day 9\ndepot 06:00-10:00 at 0 0\n\
         rest 06:00-10:00 5 min\ntip t 06:00-10:00 1 min at 0 0\n{stops}\
         legs by coordinates m 9 km/h detour 1\n"
    );
    let file = scratch.file("day.txt", text.as_bytes());
    let said = said(&kz(&["show", &file]), &file);
    assert_eq!(said.lines().count(), 21);
    assert!(said.ends_with("\n    and 10 more\n"), "{said}");
    let json = kz(&["show", &file, "--json"]).json();
    assert_eq!((json.at("faults").list().len(), json.at("more").number()), (20, 10));
}
