//! What is wrong with a wrong text: each fault is told with its line and column and with what to do,
//! and all of them at once.

mod texts;

use kz::day::{Day, Leg};
use kz::text::{of_bytes, parse, TextError};
use texts::{COORDINATES, DEGREES, MATRIX};

/// A text, a part of it that stands there once, what replaces it, and what is then wrong.
type Fault = (&'static str, &'static str, &'static str, usize, usize, &'static str);

const FAULTS: &[Fault] = &[
    (MATRIX, "day M\n", "\n", 2, 1, "a day begins with the word day, not \"load\": put a line with day and its name before this one"),
    (MATRIX, "day M", "Day M", 1, 1, "write day in small letters, not \"Day\""),
    (MATRIX, "day M", "\"day\" M", 1, 1, "write day without quotes"),
    (MATRIX, "day M", "day M N", 1, 5, "a name of several words needs quotes: write \"M N\""),
    (MATRIX, "day M", "day \"M\" N", 1, 5, "a name of several words needs quotes: write \"M N\""),
    (MATRIX, "day M", "day \"\"", 1, 5, "the name of the day is empty"),
    (MATRIX, "load 100 kg", "load 0 kg", 2, 6, "the load must be 1 to 100000, not 0"),
    (MATRIX, "load 100 kg", "load 100001 kg", 2, 6, "the load must be 1 to 100000, not 100001"),
    (MATRIX, "load 100 kg", "load 1e2 kg", 2, 6, "the load must be a whole number, not \"1e2\""),
    (MATRIX, "load 100 kg", "load \"9\" kg", 2, 6, "the load must be a whole number, not \"9\""),
    (MATRIX, "load 100 kg", "load 1,000 kg", 2, 6, "the load has no commas: write 1000, not \"1,000\""),
    (MATRIX, "load 100 kg", "load 100kg", 2, 6, "a blank stands between a number and its unit: write 100 kg, not \"100kg\""),
    (MATRIX, "load 100 kg", "load 100", 2, 9, "\"kg\" is missing"),
    (MATRIX, "load 100 kg", "load 100 t", 2, 10, "\"kg\" is expected here, not \"t\""),
    (MATRIX, "load 100 kg", "load", 2, 5, "the load is missing"),
    (MATRIX, "load 100 kg", "LOAD 100 kg", 2, 1, "write load in small letters, not \"LOAD\""),
    (MATRIX, "load 100 kg\n", "", 9, 1, "a line with load is missing before the legs"),
    (MATRIX, "load 100 kg", "lode 100 kg", 2, 1, "a line begins with load, load-a-day, stops-a-day, depot, rest, tip, stop or legs, not \"lode\""),
    (MATRIX, "load 100 kg", "load 100 kg\nday N", 3, 1, "the line with day stands first, and there is only one"),
    (MATRIX, "a-day 200", "a-day 1000001", 3, 12, "the load a day must be 1 to 1000000, not 1000001"),
    (MATRIX, "stops-a-day 5", "stops-a-day 241", 4, 13, "stops a day must be 1 to 240, not 241"),
    (MATRIX, "rest 00", "load 5 kg\nrest 00", 6, 1, "load is said already, on line 2"),
    (MATRIX, "01:40", "25:00", 5, 13, "25:00 is later than 24:00, which is minute 1440"),
    (MATRIX, "00:00-01:40", "0-1441 min", 5, 9, "1441 is later than 24:00, which is minute 1440"),
    (MATRIX, "01:40", "1:4", 5, 13, "a time is written as 07:35, not \"1:4\""),
    (MATRIX, "01:40", "01:60", 5, 13, "a time is written as 07:35, not \"01:60\""),
    (MATRIX, "01:40", "0140", 5, 13, "a time is written as 07:35, not \"0140\""),
    (MATRIX, "00:00-01:40", "-01:40", 5, 7, "a time is written as 07:35, not \"\""),
    (MATRIX, "00:00-01:40", "0600-1000", 5, 7, "\"0600-1000\" has neither colons nor \"min\" behind it: write 06:00-10:00, or 360-600 min"),
    (MATRIX, "00:00-01:40", "6-10", 5, 7, "\"6-10\" has neither colons nor \"min\" behind it: write 06:00-10:00, or 360-600 min"),
    (MATRIX, "0-100 min 5 min", "0-100 5 min", 7, 10, "\"0-100\" has neither colons nor \"min\" behind it: write 00:00-01:40, or 0-100 min"),
    (MATRIX, "0-100 min 5 min", "10-6 5 min", 7, 10, "\"10-6\" has neither colons nor \"min\" behind it: write it as 07:00-09:30, or as 420-570 min"),
    (MATRIX, "0-100 min 5 min", "0-100min 5 min", 7, 10, "a blank stands before \"min\": write 0-100 min, not \"0-100min\""),
    (MATRIX, "00:00-01:40", "00:00-01:40 min", 5, 19, "a window with colons has no \"min\" behind it"),
    (MATRIX, "00:00-01:40", "00:00", 5, 7, "the depot's window is written as 07:00-09:30, not \"00:00\""),
    (MATRIX, "00:00-01:40", "00:00 - 01:40", 5, 7, "the depot's window has no blanks within it: write it as 07:00-09:30"),
    (MATRIX, "00:00-01:40", "00:00- 01:40", 5, 7, "the depot's window has no blanks within it: write it as 07:00-09:30"),
    (MATRIX, "00:00-01:40", "00:00\u{2013}01:40", 5, 7, "the depot's window has a plain hyphen: write 00:00-01:40, not \"00:00\u{2013}01:40\""),
    (MATRIX, "00:30-01:00", "22:00-04:00", 6, 12, "the closing 04:00 is before the opening 22:00; a day ends at 24:00"),
    (MATRIX, "0-100 min", "100-0 min", 7, 14, "the closing 0 is before the opening 100; a day ends at 24:00"),
    (MATRIX, "10 min", "241 min", 6, 18, "the rest must be 0 to 240, not 241"),
    (MATRIX, "10 min", "10", 6, 20, "\"min\" is missing"),
    (MATRIX, "0-100 min 5 min", "0-100 min 241 min", 7, 20, "the service must be 0 to 240, not 241"),
    (MATRIX, "0-100 min 5 min", "0-100 min 5min", 7, 20, "a blank stands between a number and its unit: write 5 min, not \"5min\""),
    (MATRIX, "60 kg", "100001 kg", 8, 34, "the quantity must be 0 to 100000, not 100001"),
    (MATRIX, "60 kg", "60kg", 8, 34, "a blank stands between a number and its unit: write 60 kg, not \"60kg\""),
    (MATRIX, "p\" 0-50", "p\"0-50", 8, 18, "a blank is missing before or behind a quote"),
    (MATRIX, "p\" 0-50", "p 0-50", 8, 6, "the closing quote is missing"),
    (MATRIX, "p\" 0-50", "p\u{7}\" 0-50", 8, 6, "a control character stands in this field"),
    (MATRIX, "stop \"first stop\" 0", "stop first stop 0", 8, 6, "a name of several words needs quotes: write \"first stop\""),
    (MATRIX, "stop second", "stop Baker\u{2019}s 2-4", 9, 6, "a name of several words needs quotes: write \"Baker\u{2019}s 2-4\""),
    (MATRIX, "stop \"first stop\" 0", "stop 'first stop' 0", 8, 6, "a name of several words needs quotes: write \"first stop\""),
    (MATRIX, "stop \"first stop\" 0", "stop \u{201C}first stop\u{201D} 0", 8, 6, "a name stands between straight quotes, \" and \", not \u{201C}"),
    (MATRIX, "stop \"first stop\" 0", "stop \u{AB}first\u{BB} 0", 8, 6, "a name stands between straight quotes, \" and \", not \u{AB}"),
    (MATRIX, "p\" 0-50", "p\u{201D} 0-50", 8, 6, "a name stands between straight quotes, \" and \", not \u{201D}"),
    (MATRIX, "legs by matrix", "legs", 10, 5, "\"by\" is missing"),
    (MATRIX, "legs by matrix", "legs by ear", 10, 9, "legs are given by matrix or by coordinates, not by \"ear\""),
    (MATRIX, "depot - ", "depot 1/0 ", 11, 7, "the way from a place to itself is written as - or 0/0"),
    (MATRIX, "yard 10/7", "yard -", 12, 6, "a leg is written as minutes/distance, not \"-\""),
    (MATRIX, "yard 10/7", "yard 10", 12, 6, "a leg is written as minutes/distance, not \"10\""),
    (MATRIX, "yard 10/7", "yard 1.5/7", 12, 6, "the minutes of a leg must be a whole number, not \"1.5\""),
    (MATRIX, "yard 10/7", "yard 1441/7", 12, 6, "the minutes from \"yard\" to \"depot\" must be 0 to 1440, not 1441: they stand before the /"),
    (MATRIX, "yard 10/7", "yard 10/65536", 12, 9, "the distance from \"yard\" to \"depot\" must be 0 to 65535, not 65536: give all distances in a larger unit"),
    (MATRIX, "0/0 10/7", "0/0", 13, 27, "the leg to \"second\" is missing"),
    (MATRIX, "0/0 10/7", "0/0 10/7 1/1", 13, 33, "nothing more is expected on this line, not \"1/1\""),
    (MATRIX, "\"first stop\" 10", "first stop 10", 13, 1, "a name of several words needs quotes: write \"first stop\""),
    (MATRIX, "second 10/7", "third 10/7", 14, 1, "the legs from \"second\" are expected here, not from \"third\""),
    (MATRIX, "second 10/7 10/7 10/7 -\n", "", 13, 32, "the legs from \"second\" are missing"),
    (MATRIX, "10/7 -\n", "10/7 -\nstop", 15, 1, "the legs stand last, so nothing is expected behind them"),
    (COORDINATES, "tip yard 6:30-17:00 12 min at -1.5 0.25\n", "", 10, 1, "a line with tip is missing before the legs"),
    (COORDINATES, "stop Caf\u{e9}", "stop yard", 10, 5, "the name \"yard\" is given already, on line 8"),
    (COORDINATES, "stop Caf\u{e9}", "stop Unit #5", 8, 10, "the window is missing before the #, which begins a comment"),
    (COORDINATES, "stop Caf\u{e9}", "stop depot", 8, 6, "the name \"depot\" is the depot's"),
    (COORDINATES, "legs by coordinates km 30 km/h detour 1.20\n", "", 10, 40, "the legs are missing: \"legs by matrix\" or \"legs by coordinates\""),
    (COORDINATES, "24:00", "24:01", 8, 17, "24:01 is later than 24:00, which is minute 1440"),
    (COORDINATES, "at 3.000 4", "at 3.0000001 4", 8, 38, "a coordinate is a number with at most 6 decimals and at most 100000000 from 0, not \"3.0000001\""),
    (COORDINATES, "at 3.000 4", "at 3.000, 4", 8, 38, "a coordinate is a number with at most 6 decimals and at most 100000000 from 0, not \"3.000,\"; it has a point and no comma"),
    (COORDINATES, "at 3.000 4", "at 3.000 100000000.1", 8, 44, "a coordinate is a number with at most 6 decimals and at most 100000000 from 0, not \"100000000.1\""),
    (COORDINATES, "at 3.000 4", "at 3.000", 8, 43, "the second coordinate is missing"),
    (COORDINATES, "at 3.000 4", "on 3.000 4", 8, 35, "\"at\" is expected here, not \"on\""),
    (COORDINATES, " at 3.000 4", "", 8, 34, "\"Caf\u{e9}\" has no coordinates: at X Y"),
    (COORDINATES, "at 3.000 4", "at 60 40", 8, 38, "the way from \"depot\" to \"Caf\u{e9}\" takes 86534 metres, and a leg holds at most 65535: check the coordinates and their unit, or end the line with legs with \"distance in 10 m\""),
    (COORDINATES, "30 km/h", "0 km/h", 11, 24, "the speed must be 1 to 200, not 0"),
    (COORDINATES, "30 km/h", "30km/h", 11, 24, "a blank stands between a number and its unit: write 30 km/h, not \"30km/h\""),
    (COORDINATES, "coordinates km", "coordinates mi", 11, 21, "coordinates are in km, m or degrees, not in \"mi\""),
    (COORDINATES, "coordinates km 30", "coordinates", 11, 21, "coordinates are in km, m or degrees, not in \"km/h\""),
    (COORDINATES, "1.20", "0.99", 11, 39, "the detour factor must be 1.00 to 9.99 with at most 2 decimals, not \"0.99\""),
    (COORDINATES, "1.20", "1.200", 11, 39, "the detour factor must be 1.00 to 9.99 with at most 2 decimals, not \"1.200\""),
    (COORDINATES, "1.20", "1.20 distance in 0 m", 11, 56, "the unit of distance must be 1 to 1000, not 0"),
    (COORDINATES, "1.20", "1.20 distance 10 m", 11, 53, "\"in\" is expected here, not \"10\""),
    (COORDINATES, "at 3.000 4", "at 700 0", 8, 38, "the way from \"depot\" to \"Caf\u{e9}\" takes 1680 minutes, and a leg holds at most 1440: check the coordinates and their unit, and the speed"),
];

#[test]
fn each_fault_is_named_where_it_stands() {
    for (text, part, instead, line, column, message) in FAULTS {
        assert_eq!(text.matches(part).count(), 1, "{part} is one part of the text");
        let faults = parse(&text.replace(part, instead)).expect_err(message);
        let expected = TextError { line: *line, column: *column, message: message.to_string() };
        assert_eq!(faults.told(), [expected]);
        assert_eq!(faults.to_string(), format!("line {line}, column {column}: {message}"));
    }
    let faults = parse(" # nothing").expect_err("a day of nothing");
    assert_eq!(
        faults.to_string(),
        "line 1, column 11: there is nothing here; a day begins with the word day"
    );
}

#[test]
fn the_faults_of_the_documentation_are_said_so() {
    let format = include_str!("../../../docs/FORMAT.md");
    let rows = format.split("| What is said | When |\n|---|---|\n").nth(1).expect("the faults");
    let rows: Vec<&str> = rows.lines().take_while(|row| row.starts_with('|')).collect();
    assert!(rows.len() > 10);
    for row in rows {
        let said = row.split('`').nth(1).expect("what is said");
        assert!(FAULTS.iter().any(|fault| fault.5 == said), "{said}");
    }
}

/// What is said of a text, all lines of it.
fn told(text: &str) -> String {
    parse(text).expect_err("a faulty text").to_string()
}

#[test]
fn all_faults_of_a_text_are_told_at_once() {
    let text = MATRIX
        .replace("load 100 kg", "Load 100kg")
        .replace("stops-a-day 5", "stops-a-day 5 stops")
        .replace("0-50 min 5 min 60 kg", "6-10 5min 60,5 kg")
        .replace("depot - 10/7", "depot - 1441/x");
    assert_eq!(
        told(&text),
        "line 2, column 1: write load in small letters, not \"Load\"
    line 2, column 6: a blank stands between a number and its unit: write 100 kg, not \"100kg\"
    line 4, column 15: nothing more is expected on this line, not \"stops\"
    line 8, column 19: \"6-10\" has neither colons nor \"min\" behind it: write 06:00-10:00, or 360-600 min
    line 8, column 24: a blank stands between a number and its unit: write 5 min, not \"5min\"
    line 8, column 29: the quantity has no commas: write 605, not \"60,5\"
    line 11, column 9: the minutes from \"depot\" to \"yard\" must be 0 to 1440, not 1441: they stand before the /"
    );
}

#[test]
fn at_most_twenty_faults_are_told_and_the_others_counted() {
    let stops = |count: usize| -> String {
        (1..=count).map(|stop| format!("stop s{stop} 6-10 5 min 1 kg at 0 0\n")).collect()
    };
    let text = |count| COORDINATES.replace("legs by", &format!("{}legs by", stops(count)));
    let twenty = told(&text(20));
    assert_eq!(twenty.lines().count(), 20);
    assert!(twenty.lines().last().is_some_and(|line| line.starts_with("    line 30, column 10: ")));
    let more = told(&text(23));
    assert_eq!(more, format!("{twenty}\n    and 3 more"));
    let faults = parse(&text(23)).expect_err("faults");
    assert_eq!((faults.told().len(), faults.more()), (20, 3));
}

#[test]
fn what_follows_from_another_fault_is_not_told() {
    let nameless = MATRIX.replace("stop second 0", "stop \"second 0");
    assert_eq!(told(&nameless), "line 9, column 6: the closing quote is missing");
    let misspelt = MATRIX.replace("tip yard", "tips yard");
    assert!(told(&misspelt).ends_with("legs, not \"tips\""));
    let unordered = MATRIX.replace("yard 10/7 - ", "yards 10/7 - ");
    assert_eq!(told(&unordered).lines().count(), 1);
    let no_speed = COORDINATES.replace("30 km/h", "300 km/h").replace("at 3.000 4", "at 3 4000");
    assert_eq!(told(&no_speed), "line 11, column 24: the speed must be 1 to 200, not 300");
    let no_place = COORDINATES.replace("at 0 0", "at 0 O").replace("at 3.000 4", "");
    assert_eq!(
        told(&no_place),
        "line 8, column 34: \"Caf\u{e9}\" has no coordinates: at X Y\n    \
         line 9, column 24: a coordinate is a number with at most 6 decimals and at most 100000000 \
         from 0, not \"O\""
    );
}

#[test]
fn what_is_missing_is_told_once_for_each_statement() {
    assert_eq!(
        told("day\ndepot 06:00-15:00\n"),
        "line 2, column 18: a line with load is missing before the legs
    line 2, column 18: a line with load-a-day is missing before the legs
    line 2, column 18: a line with stops-a-day is missing before the legs
    line 2, column 18: a line with rest is missing before the legs
    line 2, column 18: a line with tip is missing before the legs
    line 2, column 18: the legs are missing: \"legs by matrix\" or \"legs by coordinates\""
    );
}

#[test]
fn texts_that_are_no_day_are_told_by_what_they_look_like() {
    let guide = "not like a day in text; the guide shows what a day in text looks like";
    for table in [
        "name;open;close;kg\nBaker;06:00;10:00;40\n",
        "\"name\",\"open\",\"close\"\n\"Baker\",\"06:00\",\"10:00\"\n",
        "name\topen\tclose\tkg\nBaker\t06:00\t10:00\t40\n",
        "day;Tuesday\nload;2300;kg\n",
        "Stop name;opens;closes;kg\nBaker;06:00;10:00;40\n",
    ] {
        let csv = "a table that a spreadsheet wrote (CSV)";
        assert_eq!(told(table), format!("line 1, column 1: this looks like {csv}, {guide}"));
    }
    let json = format!("line 2, column 1: this looks like JSON, {guide}");
    assert_eq!(told("\n  {\"day\": 1}"), json);
    let page = format!("line 1, column 1: this looks like a web page or XML, {guide}");
    assert_eq!(told("<html>"), page);
    assert_eq!(
        told("Dear planner,\nhere is the day\n"),
        "line 1, column 1: a day begins with the word day, not \"Dear\"; the guide shows what a \
         day in text looks like"
    );
    assert_eq!(told("\"day"), "line 1, column 1: the closing quote is missing");
    assert_eq!(
        told(&COORDINATES.replace('\n', "\r")),
        "line 1, column 14: the lines of this text end with a carriage return alone: save it with the \
         line ends of Windows or Unix"
    );
    assert!(told("Stops, tips, legs: all in\na letter\n").contains("not like a day in text"));
    assert!(told("Here are stops, tips, legs\nin a letter\n").contains("not \"Here\""));
}

#[test]
fn texts_in_another_encoding_are_told() {
    let of = |bytes: &[u8]| of_bytes(bytes).expect_err("another encoding").to_string();
    let latin: Vec<u8> = COORDINATES.chars().map(|letter| letter as u32 as u8).collect();
    assert_eq!(
        of(&latin),
        "line 3, column 15: the byte E4 is no UTF-8; the text seems to be saved as Latin-1 or \
         Windows-1252: save it as UTF-8"
    );
    let utf16 = "line 1, column 1: this text is saved as UTF-16: save it as UTF-8";
    let words = || COORDINATES.encode_utf16();
    let low: Vec<u8> = words().flat_map(u16::to_le_bytes).collect();
    let high: Vec<u8> = words().flat_map(u16::to_be_bytes).collect();
    assert_eq!([of(&low), of(&high)], [utf16; 2]);
    assert_eq!(of(&[b"\xFF\xFE", low.as_slice()].concat()), utf16);
    assert_eq!(of(&[b"\xFE\xFF", high.as_slice()].concat()), utf16);
}

#[test]
fn degrees_under_another_unit_are_refused_with_what_to_write() {
    let degrees =
        "write \"legs by coordinates degrees 20 km/h detour 1.30\", with the latitude first \
                   in each \"at\"";
    let look = "line 9, column 21: the coordinates look like degrees, not like";
    assert_eq!(
        told(&DEGREES.replace("degrees", "km")),
        format!("{look} km: {degrees}; if they are km, give them in m")
    );
    assert_eq!(told(&DEGREES.replace("degrees", "m")), format!("{look} m: {degrees}"));
    assert_eq!(
        told(&DEGREES.replace("51.498765 -0.143210", "461344 5333000")),
        "line 8, column 39: latitudes are -90 to 90 and longitudes -180 to 180: at LATITUDE LONGITUDE"
    );
}

#[test]
fn degrees_give_legs_along_the_great_circle() {
    let day = Day::of(&parse(DEGREES).expect("a day").words);
    // By the haversine formula: 2,110.04 m, 1,435.13 m and 3,545.15 m, times 1.3, at 20 km/h.
    assert_eq!(day.leg(0, 1), Leg { minutes: 9, distance: 2_744 });
    assert_eq!(day.leg(0, 2), Leg { minutes: 6, distance: 1_866 });
    assert_eq!(day.leg(1, 2), Leg { minutes: 14, distance: 4_609 });
    assert_eq!(day.leg(2, 1), day.leg(1, 2));
    assert_eq!(day.leg(2, 2), Leg::default());
}

#[test]
fn large_coordinates_of_a_grid_and_a_larger_unit_of_distance_are_taken() {
    let grid = DEGREES
        .replace("51.507400 -0.127800", "461344.25 5333000.5")
        .replace("51.520000 -0.105000", "464344.25 5337000.5")
        .replace("51.498765 -0.143210", "32461344.25 5333000.5");
    let grid = |unit: &str| grid.replace("degrees", unit).replace("20 km/h", "200 km/h");
    assert_eq!(
        told(&grid("m")),
        "line 8, column 39: the way from \"depot\" to \"Baker\" takes 12480 minutes, and a leg holds \
         at most 1440: check the coordinates and their unit, and the speed"
    );
    assert_eq!(
        told(&grid("km")),
        "line 7, column 32: the way from \"depot\" to \"yard\" takes 1950 minutes, and a leg holds \
         at most 1440: check the coordinates and their unit, and the speed; most other places are too far \
         as well"
    );
    let near = |unit: &str| grid(unit).replace("32461344.25", "461344.25");
    let day = Day::of(&parse(&near("m")).expect("a day").words);
    assert_eq!(day.leg(0, 1), Leg { minutes: 2, distance: 6_500 });
    let in_hundreds = near("m").replace("1.30\n", "1.30 distance in 100 m\n");
    let day = Day::of(&parse(&in_hundreds).expect("a day").words);
    assert_eq!(day.leg(0, 1), Leg { minutes: 2, distance: 65 });
}
