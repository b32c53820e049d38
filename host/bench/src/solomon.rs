//! Solomon instances brought in as days, in wide columns as the public files have them.

use std::hint::black_box;

use reference::plain;
use reference::random::Random;

use crate::table::Table;

/// What the rows of this file need to be read rightly.
pub const NOTE: &str = "\
import            the bytes are those of the text, in columns of 11. For 100 stops 10,713 words are
                  written, for 240 stops 59,293; most of them are legs, each with two roots
refused           the last number of the text is past its limit, so that no word is written
";

/// Room for any text.
const ROOM: usize = 59_293;

/// The longest service, and one minute more.
const LONGEST: u32 = 240;
const TOO_LONG: u32 = 241;

pub fn rows(table: &mut Table) {
    import(table, "import 100 stops", &text_of(100, LONGEST));
    import(table, "import 240 stops", &text_of(240, LONGEST));
    import(table, "import 240 stops, refused in the last line", &text_of(240, TOO_LONG));
}

/// So many stops, the last of which has this service.
fn text_of(stops: u32, last_service: u32) -> Vec<u8> {
    let mut random = Random::new(1);
    let mut text = "R1\r\n\r\nVEHICLE\r\nNUMBER CAPACITY\r\n".to_string();
    text += &line(&[25, 1_000]);
    text += "\r\nCUSTOMER\r\nCUST X Y DEMAND READY DUE SERVICE\r\n\r\n";
    for number in 0..=stops {
        let (x, y) = (random.within(0..=1_000), random.within(0..=1_000));
        let (demand, ready) = (random.within(0..=1_000), random.within(0..=1_000));
        let service = if number == stops { last_service } else { 10 };
        text += &line(&[number, x, y, demand, ready, ready + 60, service]);
    }
    text.into_bytes()
}

fn line(numbers: &[u32]) -> String {
    let fields: String = numbers.iter().map(|number| format!("{number:11}")).collect();
    fields + "\r\n"
}

fn import(table: &mut Table, name: &str, text: &[u8]) {
    let (mut library, mut plain) = (vec![0; ROOM], vec![0; ROOM]);
    table.row(
        name,
        text.len(),
        || library_import(black_box(text), black_box(&mut library)),
        || plain_import(black_box(text), black_box(&mut plain)),
    );
    assert!(library == plain, "{name}: the words differ");
}

/// The words written; or number and place.
fn library_import(text: &[u8], words: &mut [u32]) -> Result<usize, (u64, u64)> {
    kazhuvendi::import_solomon(text, words).map_err(|refusal| (refusal.number, refusal.place))
}

fn plain_import(text: &[u8], words: &mut [u32]) -> Result<usize, (u64, u64)> {
    plain::import_solomon(text, words).map_err(|refusal| (refusal.number, refusal.place))
}
