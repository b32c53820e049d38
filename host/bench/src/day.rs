//! The day file: judging it and reading it from bytes.

use std::hint::black_box;

use reference::random::Random;
use reference::samples::{day_m, random_day};
use reference::{bytes, plain};

use crate::table::Table;

const STOPS: usize = 240;
const TIPS: usize = 15;
const PLACES: usize = 1 + TIPS + STOPS;

/// Stops and tips, or number and place.
type Judged = Result<(usize, usize), (u64, u64)>;

pub fn rows(table: &mut Table) {
    let day = random_day(&mut Random::new(1), STOPS, TIPS).words();
    let middle = refused_at(&day, day.len() - PLACES * PLACES / 2);
    let last_row = refused_at(&day, day.len() - PLACES / 2);
    judge(table, "judge day M, accepted", &day_m().words());
    judge(table, "judge a day, accepted", &day);
    judge(table, "judge a day, refused in the middle", &middle);
    judge(table, "judge a day, refused in the last row of legs", &last_row);
    read(table, "read the words of a day from bytes", &bytes::write(&day));
}

/// The same day with a leg of too many minutes.
fn refused_at(day: &[u32], index: usize) -> Vec<u32> {
    let mut day = day.to_vec();
    day[index] = 0x9FFF_0000;
    day
}

fn judge(table: &mut Table, name: &str, day: &[u32]) {
    table.row(name, day.len(), || library_judge(black_box(day)), || plain_judge(black_box(day)));
}

fn library_judge(day: &[u32]) -> Judged {
    match kazhuvendi::judge(day) {
        Ok(size) => Ok((size.stops, size.tips)),
        Err(refusal) => Err((refusal.number, refusal.place)),
    }
}

fn plain_judge(day: &[u32]) -> Judged {
    plain::judge(day).map_err(|refusal| (refusal.number, refusal.place))
}

fn read(table: &mut Table, name: &str, file: &[u8]) {
    let count = file.len() / 4;
    let (mut library, mut plain) = (vec![0; count], vec![0; count]);
    table.row(
        name,
        count,
        || kazhuvendi::read_words(black_box(file), black_box(&mut library)).ok(),
        || plain::read_words(black_box(file), black_box(&mut plain)).ok(),
    );
    assert_eq!(library, plain);
}
