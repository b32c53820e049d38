//! Planning with trials on days of few long rounds and of many short ones: the whole of the public
//! call, by the trials that it makes.

use std::hint::black_box;

use reference::sets::Sets;

use crate::rounds::{each_day, name, plan_with, room};
use crate::table::Table;

/// What the rows of this file need to be read rightly.
pub const NOTE: &str = "\
trials            those made: the plan was settled with fewer than 20,000, else the budget was
                  used up. Judging the day, the greedy build and the neighbours count
plain             rebuilds the whole plan for each trial and checks it afresh
growing           neighbour sets of 5, 10, 25 and 50; the other rows have one K
";

const BUDGET: u64 = 20_000;

/// Distance, trials, settled, stops left out and words; or number and place.
type Answer = Result<(u64, u64, bool, usize, usize), (u64, u64)>;

pub fn rows(table: &mut Table) {
    for day in each_day() {
        for sets in [Sets::Nearest(5), Sets::Nearest(10), Sets::Nearest(50), Sets::Growing] {
            plan(table, &format!("plan {}, {}", day.name, name(sets)), &day.words, sets);
        }
    }
}

fn plan(table: &mut Table, name: &str, day: &[u32], sets: Sets) {
    let (mut library, mut plain) = (room(day), room(day));
    let (mut work, mut plain_work) = (room(day), room(day));
    let planned = library_plan(day, sets, &mut library, &mut work).expect("the day is planned");
    table.row(
        name,
        planned.1 as usize,
        || library_plan(black_box(day), sets, black_box(&mut library), &mut work),
        || plain_plan(black_box(day), sets, black_box(&mut plain), &mut plain_work),
    );
    assert!(library == plain, "{name}: the plans differ");
}

fn library_plan(day: &[u32], sets: Sets, plan: &mut [u32], work: &mut [u32]) -> Answer {
    match plan_with(sets, day, BUDGET, plan, work) {
        Ok(made) => Ok((made.distance, made.trials, made.settled, made.left_out, made.words)),
        Err(refusal) => Err((refusal.number, refusal.place)),
    }
}

fn plain_plan(day: &[u32], sets: Sets, plan: &mut [u32], work: &mut [u32]) -> Answer {
    match sets.plan_plainly(day, BUDGET, plan, work) {
        Ok(made) => Ok((made.distance, made.trials, made.settled, made.left_out, made.words)),
        Err(refusal) => Err((refusal.number, refusal.place)),
    }
}
