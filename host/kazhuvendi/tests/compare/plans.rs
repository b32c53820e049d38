//! Plans: both get the same day and the same plan, or two of them.

use std::fmt;

use kazhuvendi::{Refusal, Totals};
use reference::damage::file_of;
use reference::day::{self, Day};
use reference::drafts::{other_rounds, other_ways, random_draft, Draft};
use reference::lent::Lent;
use reference::limits::at_a_limit;
use reference::plan_damage::damage_plan;
use reference::random::Random;
use reference::samples::random_size;
use reference::workdays::workday;
use reference::{check, rounds};

use crate::compare::{as_refusal, Tally};

/// What was met, call by call.
#[derive(Default)]
pub struct Tallies {
    pub check: Tally,
    pub vehicle: Tally,
    pub rounds: Tally,
}

impl fmt::Display for Tallies {
    fn fmt(&self, f: &mut fmt::Formatter<'_>) -> fmt::Result {
        write!(f, "check: {}\nvehicle: {}\nrounds: {}", self.check, self.vehicle, self.rounds)
    }
}

/// A day file that is lent again and again, and what the second implementation reads in it.
pub struct LentDay {
    pub words: Vec<u32>,
    lent: Lent<u32>,
    read: Result<Day, reference::Refusal>,
}

impl LentDay {
    pub fn new(words: &[u32]) -> Self {
        let lent = Lent::new(words, words.len() % 8);
        LentDay { words: words.to_vec(), lent, read: day::read(words) }
    }

    /// What the library should say, where the second implementation says this of the day.
    fn expected<A>(
        &self,
        ask: impl Fn(&Day) -> Result<A, reference::Refusal>,
    ) -> Result<A, Refusal> {
        self.read.as_ref().map_err(|refusal| *refusal).and_then(ask).map_err(as_refusal)
    }
}

/// A plan too may be lent in any place.
pub fn check_alike(day: &LentDay, plan: &[u32], tally: &mut Tally) {
    let lent = Lent::new(plan, plan.len() % 8);
    let checked = kazhuvendi::check(day.lent.items(), lent.items());
    day.lent.assert_holds(&day.words);
    lent.assert_holds(plan);
    let expected = day.expected(|day| check::check(day, plan)).map(|totals| Totals {
        distance: totals.distance,
        vehicles: totals.vehicles as usize,
        served: totals.served as usize,
    });
    assert_eq!(checked, expected, "{plan:X?} of {:X?}", day.words);
    tally.add(checked.map(|_| "plans lawful"));
    match checked {
        Ok(totals) if totals.vehicles > 1 => tally.note("plans lawful with several vehicles"),
        Err(refusal) if refusal.number > 6 && refusal.place > 100 => {
            tally.note("plans refused behind word 100");
        }
        _ => {}
    }
}

/// The companion's answer is compared, and the part with the companion's answer: it is that part
/// of the plan that was lent, and no copy.
pub fn vehicle_alike(day: &LentDay, plan: &[u32], number: u64, tally: &mut Tally) {
    let lent = Lent::new(plan, plan.len() % 8);
    let place = kazhuvendi::vehicle_place(day.lent.items(), lent.items(), number);
    let part = kazhuvendi::vehicle(day.lent.items(), lent.items(), number);
    day.lent.assert_holds(&day.words);
    lent.assert_holds(plan);
    let expected = day.expected(|day| rounds::vehicle(day, plan, number));
    assert_eq!(place, expected, "vehicle {number} of {plan:X?} of {:X?}", day.words);
    let expected_part = place.clone().map(|place| &lent.items()[place]);
    assert_eq!(part.map(<[u32]>::as_ptr_range), expected_part.map(<[u32]>::as_ptr_range));
    tally.add(place.map(|_| "vehicles found"));
}

pub fn rounds_alike(day: &LentDay, first: &[u32], second: &[u32], tally: &mut Tally) {
    let lent_first = Lent::new(first, first.len() % 8);
    let lent_second = Lent::new(second, second.len() % 8);
    let same = kazhuvendi::same_rounds(day.lent.items(), lent_first.items(), lent_second.items());
    day.lent.assert_holds(&day.words);
    lent_first.assert_holds(first);
    lent_second.assert_holds(second);
    let expected = day.expected(|day| rounds::same_rounds(day, first, second));
    assert_eq!(same, expected, "{first:X?} and {second:X?} of {:X?}", day.words);
    tally.add(same.map(|same| match same {
        true if first == second => "same plans",
        true => "same rounds",
        false => "other rounds",
    }));
}

/// A day with a lawful plan, and with plans made from it, of which most are not lawful.
pub fn round(random: &mut Random, tallies: &mut Tallies) {
    let (stops, tips) = random_size(random);
    let day = workday(random, stops, tips);
    let draft = random_draft(random, &day);
    let lawful = draft.words(&day);
    let day = if random.once_in(2) { at_a_limit(random, &day, &lawful) } else { day };
    let file = LentDay::new(&file_of(random, &day));
    check_alike(&file, &lawful, &mut tallies.check);
    for _ in 0..8 {
        let plan = random_plan(random, &day, &draft);
        check_alike(&file, &plan, &mut tallies.check);
    }
    for _ in 0..3 {
        let plan = random_plan(random, &day, &draft);
        let number = random_number(random, &plan);
        vehicle_alike(&file, &plan, number, &mut tallies.vehicle);
        let second = random_plan(random, &day, &draft);
        rounds_alike(&file, &plan, &second, &mut tallies.rounds);
    }
}

/// The plan of the draft, one near it, or a damaged one.
fn random_plan(random: &mut Random, day: &Day, draft: &Draft) -> Vec<u32> {
    let (draft, damages) = match random.below(10) {
        0 => (draft.clone(), 0),
        1 | 2 => (other_ways(random, day, draft), 0),
        3 => (other_rounds(random, day, draft), 0),
        4..=8 => (draft.clone(), 1),
        _ => (draft.clone(), 2),
    };
    let mut words = draft.words(day);
    for _ in 0..damages {
        damage_plan(random, day, &mut words);
    }
    words
}

/// Most are the number of a vehicle of the plan, or the next. Others have the same low bits.
fn random_number(random: &mut Random, plan: &[u32]) -> u64 {
    let vehicles = plan.iter().filter(|word| *word >> 28 == 0xA).count();
    let number = 1 + random.below(vehicles + 1) as u64;
    match random.below(8) {
        0 => 0,
        1 => number + 256,
        2 => number + (1 << 32),
        3 => random.bits(),
        _ => number,
    }
}
