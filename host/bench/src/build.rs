//! The greedy build of usual days: with the judging of the day, as the public call does it, and by
//! itself.

use std::hint::black_box;

use reference::plain;
use reference::random::Random;
use reference::workdays::usual_day;

use crate::table::Table;

/// What the rows of this file need to be read rightly.
pub const NOTE: &str = "\
build             the words are those of the day and of the plan buffer, 5 for each stop; where
                  the day is not counted, those of the buffer alone
";

const TIPS: usize = 15;

/// Distance, stops left out and words; or number and place.
type Built = Result<(u64, usize, usize), (u64, u64)>;

pub fn rows(table: &mut Table) {
    build(table, "build for 60 stops, judging the day", 60);
    build(table, "build for 120 stops, judging the day", 120);
    build(table, "build for 240 stops, judging the day", 240);
    alone(table, "build for 60 stops, day not counted", 5 * 60, &day_of(60), 60);
    alone(table, "build for 120 stops, day not counted", 5 * 120, &day_of(120), 120);
    alone(table, "build for 240 stops, day not counted", 5 * 240, &day_of(240), 240);
}

fn day_of(stops: usize) -> Vec<u32> {
    usual_day(&mut Random::new(1), stops, TIPS).words()
}

fn build(table: &mut Table, name: &str, stops: usize) {
    let day = day_of(stops);
    let (mut library, mut plain) = (vec![0; 5 * stops], vec![0; 5 * stops]);
    table.row(
        name,
        day.len() + 5 * stops,
        || library_build(black_box(&day), black_box(&mut library)),
        || answer(plain::build(black_box(&day), black_box(&mut plain))),
    );
    assert!(library == plain, "{name}: the plans differ");
}

/// The build by itself, on an accepted day. The time of the library's judge is taken off, which plain
/// Rust gets before it too, as for the check of a plan.
pub fn alone(table: &mut Table, name: &str, count: usize, day: &[u32], stops: usize) {
    let (mut library, mut plain) = (vec![0; 5 * stops], vec![0; 5 * stops]);
    let judge = || kazhuvendi::judge(black_box(day)).is_ok();
    table.row_less(
        name,
        count,
        judge,
        || library_build(black_box(day), black_box(&mut library)),
        || {
            black_box(judge());
            answer(plain::build_accepted(black_box(day), black_box(&mut plain)))
        },
    );
    assert!(library == plain, "{name}: the plans differ");
}

fn library_build(day: &[u32], plan: &mut [u32]) -> Built {
    match kazhuvendi::build(day, plan) {
        Ok(planned) => Ok((planned.distance, planned.left_out, planned.words)),
        Err(refusal) => Err((refusal.number, refusal.place)),
    }
}

fn answer(planned: Result<plain::Planned, reference::Refusal>) -> Built {
    planned
        .map(|planned| (planned.distance, planned.left_out, planned.words))
        .map_err(|refusal| (refusal.number, refusal.place))
}
