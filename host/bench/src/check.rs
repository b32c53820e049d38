//! The check of plans of 240 stops: with the judging of the day, as the public call does it, and
//! by itself, as a planner does it that checks many plans of one day.

use std::hint::black_box;

use reference::check::Totals;
use reference::day::Day;
use reference::drafts::random_draft;
use reference::plain;
use reference::random::Random;
use reference::workdays::usual_day;

use crate::table::Table;

/// What the rows below need to be read rightly.
pub const NOTE: &str = "\
judging the day   the public call, over the words of the day and of the plan
day not counted   over the words of the plans. Both sides begin with the library's judge,
                  and the time that it takes by itself is taken off
64 plans in turn  the processor learns one plan by heart, but not so many
";

const STOPS: usize = 240;
const TIPS: usize = 15;

/// The totals, or number and place.
type Checked = Result<Totals, (u64, u64)>;

pub fn rows(table: &mut Table) {
    let mut random = Random::new(1);
    let day = usual_day(&mut random, STOPS, TIPS);
    let plans: Vec<Vec<u32>> = (0..64).map(|_| full_plan(&mut random, &day)).collect();
    let day = day.words();
    check(table, "check a plan, judging the day", &day, &plans[0]);
    check_alone(table, "check a plan, day not counted", &day, &plans[..1]);
    check_alone(table, "check 64 plans in turn, day not counted", &day, &plans);
}

/// A lawful plan that leaves no stop out.
fn full_plan(random: &mut Random, day: &Day) -> Vec<u32> {
    loop {
        let plan = random_draft(random, day).words(day);
        if plan.iter().all(|word| word >> 28 != 0xF) {
            return plan;
        }
    }
}

fn check(table: &mut Table, name: &str, day: &[u32], plan: &[u32]) {
    table.row(
        name,
        day.len() + plan.len(),
        || library_check(black_box(day), black_box(plan)),
        || answer(plain::check(black_box(day), black_box(plan))),
    );
}

/// The library has no call that leaves the day out, so the time of its judge is taken off. Plain
/// Rust gets the same judge before it, so that it too finds the day as the judge has left it.
fn check_alone(table: &mut Table, name: &str, day: &[u32], plans: &[Vec<u32>]) {
    let judge = |_: &Vec<u32>| kazhuvendi::judge(black_box(day)).is_ok();
    table.row_less(
        name,
        plans.iter().map(Vec::len).sum(),
        || plans.iter().map(judge).filter(|accepted| black_box(*accepted)).count(),
        || distance(plans, |plan| library_check(black_box(day), black_box(plan))),
        || {
            distance(plans, |plan| {
                black_box(judge(plan));
                answer(plain::check_accepted(black_box(day), black_box(plan)))
            })
        },
    );
}

/// The distance of all plans, which are lawful.
fn distance(plans: &[Vec<u32>], check: impl Fn(&Vec<u32>) -> Checked) -> u64 {
    plans.iter().map(|plan| check(plan).expect("a lawful plan").distance).sum()
}

fn library_check(day: &[u32], plan: &[u32]) -> Checked {
    match kazhuvendi::check(day, plan) {
        Ok(totals) => Ok(Totals {
            distance: totals.distance,
            vehicles: totals.vehicles as u64,
            served: totals.served as u64,
        }),
        Err(refusal) => Err((refusal.number, refusal.place)),
    }
}

fn answer(checked: Result<Totals, reference::Refusal>) -> Checked {
    checked.map_err(|refusal| (refusal.number, refusal.place))
}
