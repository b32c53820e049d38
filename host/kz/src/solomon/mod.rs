//! Instances of the public Solomon text form. The proved library makes the words of a day of them.
//! Here is what the words don't have: which texts are such instances, what an instance is called, on
//! which lines its customers stand, and what belongs at a place that the library refuses.

mod layout;
mod place;

use kazhuvendi::Refusal;

use crate::clock::shortened;
use crate::form::without_mark;
use crate::text::{is_heading, PlaceLines};

pub use layout::{Line, CAPACITY, DUE, READY, ROW};
pub use place::{Place, Wanted};

use layout::{fields, lines, HEAD};

/// So many words has the day of 240 customers, 13 + 7n + n × n, and no day of an instance has more.
const MOST_WORDS: usize = 59_293;

/// No name of an instance is shown with more characters.
const LONGEST_NAME: usize = 100;

/// The day of an instance.
#[derive(Debug)]
pub struct Instance {
    /// The words of the day file.
    pub words: Vec<u32>,
    /// What its name line says.
    pub name: String,
    /// The lines of its customers, and of the depot, where its tip stands.
    pub lines: PlaceLines,
}

/// The instance that a text is.
///
/// # Errors
///
/// Refusals 17 and 18 of the library, whose place is a byte of the text.
pub fn read(text: &[u8]) -> Result<Instance, Refusal> {
    let mut words = vec![0; MOST_WORDS];
    let count = kazhuvendi::import_solomon(text, &mut words)?;
    words.truncate(count);
    Ok(Instance { words, name: name(text), lines: place_lines(text) })
}

/// Whether a text is meant to be an instance: VEHICLE stands alone on one of its lines, and no line
/// before that begins with the word day, as a day in text does.
pub fn is_instance(text: &[u8]) -> bool {
    let lines = lines(without_mark(text)).map(|(_, line)| line);
    let vehicle = lines.clone().position(is_vehicle);
    vehicle.is_some_and(|before| !lines.take(before).any(is_heading))
}

/// Whether a text is meant to be a day in text, and no instance whose name begins with the word day.
pub fn is_day(text: &[u8]) -> bool {
    let mut lines = lines(without_mark(text)).map(|(_, line)| line);
    let mut says = lines.clone().filter(|line| !line.trim_ascii_start().starts_with(b"#"));
    says.next().is_some_and(is_heading) && !lines.any(is_vehicle)
}

fn is_vehicle(line: &[u8]) -> bool {
    fields(line).eq([b"VEHICLE"])
}

/// What the name line says, without what a terminal would obey and a name of a day can't have.
fn name(text: &[u8]) -> String {
    let first = lines(without_mark(text)).next().map_or(&[][..], |(_, line)| line);
    let plain = String::from_utf8_lossy(first).replace(char::is_control, " ").replace('"', "'");
    let words: Vec<&str> = plain.split_whitespace().collect();
    shortened(&words.join(" "), LONGEST_NAME)
}

/// The lines of an instance that can be read: first the head, then the depot, then the customers.
fn place_lines(text: &[u8]) -> PlaceLines {
    let mut rows = lines(text).skip(HEAD).map(|(number, _)| number);
    let depot = rows.next().into_iter().collect();
    PlaceLines::on(depot, rows.collect())
}

#[cfg(test)]
mod tests {
    use super::*;

    #[test]
    fn an_instance_has_the_line_vehicle_before_a_line_with_day() {
        for text in [
            &b"C1\nVEHICLE\n"[..],
            b"\xEF\xBB\xBFC1\r\n\r\n\tVEHICLE \r\n",
            b"A0000001\nVEHICLE",
            b"VEHICLE\nday\n",
            b"depot 5\n# day\nholiday\nVEHICLE\n",
        ] {
            assert!(is_instance(text), "{}", text.escape_ascii());
        }
        for text in [
            &b""[..],
            b"C1\nVehicle\n",
            b"C1\nVEHICLES\n",
            b"C1\nVEHICLE 1\n",
            b"C1 VEHICLE\n",
            b"C1\n\"VEHICLE\"\n",
            b"day\nVEHICLE\n",
            b"# C1\n\n  Day one\nVEHICLE\n",
            b"\xEF\xBB\xBF\"day\" one\nVEHICLE\n",
            b"C1\nday#\nVEHICLE\n",
        ] {
            assert!(!is_instance(text), "{}", text.escape_ascii());
        }
        assert!(is_day(b"\n# C1\nday\n") && is_day(b"DAY one"));
        assert!(!is_day(b"day\nVEHICLE\n") && !is_day(b"holiday\nday\n"));
    }

    #[test]
    fn the_tip_is_on_the_line_of_the_depot_and_each_stop_on_that_of_its_customer() {
        let text = b"N\n\nVEHICLE\nC\n1 1\n\t\r\nCUSTOMER\nC\n0\n \n1\n2";
        let lines = place_lines(text);
        assert_eq!([lines.tip(1), lines.tip(2)], [Some(9), None]);
        assert_eq!([lines.stop(1), lines.stop(2), lines.stop(3)], [Some(11), Some(12), None]);
    }

    #[test]
    fn a_name_is_what_can_be_shown_and_written_as_the_name_of_a_day() {
        for (text, shown) in [
            (&b"\n \r\n  C 101\t(wide) \r\nVEHICLE"[..], "C 101 (wide)"),
            (b"\xEF\xBB\xBFC101\n", "C101"),
            (b"the \"old\" town\x1B[2J\n", "the 'old' town [2J"),
            (b"\x07\nVEHICLE\n", ""),
            (b"Caf\xE9", "Caf\u{FFFD}"),
        ] {
            assert_eq!(name(text), shown);
        }
        assert_eq!(name(&[b'x'; 5_000]).chars().count(), LONGEST_NAME);
    }
}
