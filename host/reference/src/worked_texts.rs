//! A small Solomon instance, the words that it is brought in as, and what becomes of it when some of
//! its text is replaced: all worked out by hand.

/// Two stops: n = 2.
pub const TEXT: &str = "\
R1
VEHICLE
NUMBER CAPACITY
25 200
CUSTOMER
CUST X Y DEMAND READY DUE SERVICE
0 35 35 0 0 230 0
1 41 49 10 161 171 10
2 35 17 7 50 60 10
";

/// 13 + 7n + n² words. From the depot to stop 1 the sum of squares is 232, to stop 2 it is 324, and
/// from one to the other 1,060.
pub const WORDS: [u32; 31] = [
    0x10000102, 0x200000C8, 0x300F4240, 0x400000F0, 0x500000E6, 0x605A05A0, 0x70000000, //
    0x500000E6, 0x70000000, //
    0x500A10AB, 0x7000000A, 0x8000000A, //
    0x5003203C, 0x7000000A, 0x80000007, //
    0x90000000, 0x90000000, 0x900F0098, 0x901200B4, //
    0x90000000, 0x90000000, 0x900F0098, 0x901200B4, //
    0x900F0098, 0x900F0098, 0x90000000, 0x90200145, //
    0x901200B4, 0x901200B4, 0x90200145, 0x90000000,
];

/// What the change shows, the text that is replaced, and what stands in its place.
pub type Change = (&'static str, &'static str, &'static str);

/// The words stay the same.
pub const SAME: &[Change] = &[
    ("blanks about a word", "VEHICLE", " \tVEHICLE\r "),
    ("blank lines", "CUSTOMER\n", "\n \t\r\nCUSTOMER\n\n"),
    ("blank lines first", "R1", "\n\r\nR1"),
    ("no line feed at the end", "60 10\n", "60 10"),
    ("blanks at the end", "60 10\n", "60 10\r\n \n\t"),
    ("carriage returns between", "1 41 49", "1\r41\r\r49"),
    ("leading zeros", "1 41 49 10", "0001 00000000000000000000000041 49 010"),
    ("any number of vehicles", "25", "99999999999999999999999999999999999999999"),
    ("no vehicles", "25", "0"),
    ("any demand of the depot", "0 35 35 0", "0 35 35 18446744073709551616"),
    ("any service of the depot", "230 0", "230 241"),
    ("a name like the word behind it", "R1", "VEHICLE"),
    ("a name like a customer", "R1", "0 35 35 0 0 230 0"),
    ("columns like the word behind them", "NUMBER CAPACITY", "CUSTOMER"),
    ("columns that are numbers", "CUST X Y DEMAND READY DUE SERVICE", "0 1 2"),
    ("a name of any bytes", "R1", "\u{b}\u{a0}\0"),
];

/// The text is brought in, as other words.
pub const READ: &[Change] = &[
    ("the least capacity", "200", "1"),
    ("the largest capacity", "200", "100000"),
    ("the largest coordinates", "1 41 49", "1 1000 1000"),
    ("the largest coordinates of the depot", "0 35 35", "0 1000 1000"),
    ("the largest demand, above the capacity", "10 161", "100000 161"),
    ("a due date at the ready time", "161 171", "161 161"),
    ("the whole day", "161 171", "0 1440"),
    ("the day's last minute", "161 171", "1440 1440"),
    ("the longest service", "171 10", "171 240"),
    ("one stop", "2 35 17 7 50 60 10\n", ""),
];

/// Text that is not of the form. The place is where ^ stands, which is no part of the text.
pub const FORM: &[Change] = &[
    ("no name line", "R1\nVEHICLE\nNUMBER", "VEHICLE\n^NUMBER"),
    ("a word in small letters", "VEHICLE", "^vehicle"),
    ("a word and a letter", "VEHICLE", "^VEHICLES"),
    ("a word cut short", "CUSTOMER", "^CUSTOME"),
    ("one word in place of the other", "VEHICLE", "^CUSTOMER"),
    ("a field behind a word", "VEHICLE", "VEHICLE ^25"),
    ("a field before a word", "CUSTOMER\n", "^1 CUSTOMER\n"),
    ("a missing capacity", "25 200", "25^"),
    ("a missing capacity and blanks", "25 200", "25 \r^"),
    ("a field behind the capacity", "25 200", "25 200 ^x"),
    ("a vehicle number that is none", "25", "^2b"),
    ("a vehicle number with a sign", "25", "^+25"),
    ("a capacity with a point", "200", "^200.0"),
    ("a depot's demand that is no number", "35 35 0", "35 35 ^-"),
    ("a customer number again", "2 35 17", "^1 35 17"),
    ("a gap in the customer numbers", "2 35 17", "^3 35 17"),
    ("a depot numbered 1", "0 35 35", "^1 35 35"),
    ("a customer number of 33 bits", "1 41 49", "^4294967297 41 49"),
    ("a customer number of 65 bits", "1 41 49", "^18446744073709551617 41 49"),
    ("a missing service", "171 10", "171^"),
    ("a missing service at the text's end", "60 10\n", "60^"),
    ("a service on the next line", "171 10", "171^\n10"),
    ("an eighth field", "171 10", "171 10 ^0"),
    ("a line that a carriage return ends", "200\nCUSTOMER", "200\r^CUSTOMER"),
    ("a vertical tab for a blank", "41 49", "^41\u{b}49"),
    ("a wrong field before a number past its limit", "41 49 10 161 171 10", "41 ^y 10 161 160 10"),
    ("text behind the last stop", "60 10\n", "60 10\n\n ^end\n"),
];

/// Numbers that are past a limit. The place is where ^ stands.
pub const LIMIT: &[Change] = &[
    ("no capacity", "200", "^0"),
    ("a capacity past its limit", "200", "^100001"),
    ("a capacity of 33 bits", "200", "^4294967496"),
    ("an abscissa past 1,000", "1 41", "1 ^1001"),
    ("an ordinate past 1,000", "41 49", "41 ^1001"),
    ("a depot's abscissa past 1,000", "0 35", "0 ^1001"),
    ("a depot's ordinate past 1,000", "0 35 35", "0 35 ^1001"),
    ("a demand past its limit", "10 161", "^100001 161"),
    ("a demand of 65 bits", "10 161", "^18446744073709551626 161"),
    ("a ready time past the day", "161 171", "^1441 1441"),
    ("a due date past the day", "161 171", "161 ^1441"),
    ("a due date before the ready time", "161 171", "161 ^160"),
    ("a depot's due date before its ready time", "0 230", "231 ^230"),
    ("a depot's due date past the day", "0 230", "0 ^1441"),
    ("a service past its limit", "171 10", "171 ^241"),
    ("a number past its limit before a wrong field", "41 49", "^1001 y"),
    ("a number past its limit before a missing field", "60 10\n", "^1441"),
];

/// The text with the change, and where ^ stands in it.
///
/// # Panics
///
/// Where what should be replaced is not there.
pub fn changed(change: &Change) -> (Vec<u8>, Option<u64>) {
    let (shows, old, new) = change;
    let at = TEXT.find(old).unwrap_or_else(|| panic!("{shows}: {old} is not there"));
    let marked = [&TEXT[..at], new, &TEXT[at + old.len()..]].concat();
    let place = marked.find('^').map(|place| place as u64);
    (marked.replace('^', "").into_bytes(), place)
}
