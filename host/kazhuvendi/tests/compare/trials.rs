//! Planning with trials: both get the same day, the same setting and buffers of the same lengths.

use kazhuvendi::{Planned, Refusal};
use reference::lent::Lent;
use reference::random::Random;
use reference::sets::Sets;
use reference::trial_days::{random_sets, random_setting, random_trial_file, Setting};
use reference::{build, day, planning};

use crate::compare::{as_refusal, Tally};
use crate::written::{assert_lawful, words_of_no_meaning, write_plan};

/// A day, accepted or not, and a setting for it, with the K nearest or with growing neighbour sets.
pub fn round(random: &mut Random, tally: &mut Tally) {
    let sets = random_sets(random);
    round_with(sets, random, tally);
}

/// The same with these neighbours.
pub fn round_with(sets: Sets, random: &mut Random, tally: &mut Tally) {
    let words = random_trial_file(random);
    let by = random_setting(random, &words, sets);
    plan_alike(&words, by, random, tally);
}

/// The library's answer.
pub fn plan_with(
    sets: Sets,
    day: &[u32],
    budget: u64,
    plan: &mut [u32],
    work: &mut [u32],
) -> Result<Planned, Refusal> {
    match sets {
        Sets::Nearest(k) => kazhuvendi::plan(day, k, budget, plan, work),
        Sets::Growing => kazhuvendi::plan_growing(day, budget, plan, work),
    }
}

/// The buffers hold words of no meaning before. After a plan the plan buffer is zero from the plan's
/// end to 5n and as before beyond, and the working buffer is free; after a refusal all is as before.
pub fn plan_alike(words: &[u32], by: Setting, random: &mut Random, tally: &mut Tally) {
    let mut plan = words_of_no_meaning(random, by.room);
    let work = words_of_no_meaning(random, by.work_room);
    let lent_day = Lent::new(words, words.len() % 8);
    let mut lent_plan = Lent::new(&plan, random.below(8));
    let mut lent_work = Lent::new(&work, random.below(8));
    let (plan_words, work_words) = (lent_plan.items_mut(), lent_work.items_mut());
    let answer = plan_with(by.sets, lent_day.items(), by.budget, plan_words, work_words);
    let expected = day::read(words).and_then(|day| {
        let planned = by.sets.plan(&day, by.budget, by.room, by.work_room)?;
        write_plan(&mut plan, &planned.words, day.stops.len());
        note(&day, &planned, tally);
        Ok(planned)
    });
    assert_eq!(answer, expected_answer(&expected), "{by:?}, {words:X?}");
    lent_day.assert_holds(words);
    lent_plan.assert_holds(&plan);
    match answer {
        Ok(planned) => {
            lent_work.assert_canaries();
            assert_lawful(words, &lent_plan.items()[..planned.words], planned);
        }
        Err(_) => lent_work.assert_holds(&work),
    }
    tally.add(answer.map(|_| "plans written"));
}

fn expected_answer(
    expected: &Result<planning::Planned, reference::Refusal>,
) -> Result<Planned, Refusal> {
    let planned = |planned: &planning::Planned| Planned {
        distance: planned.distance,
        trials: planned.trials,
        settled: planned.settled,
        left_out: planned.left_out as usize,
        words: planned.words.len(),
    };
    expected.as_ref().map(planned).map_err(|refusal| as_refusal(*refusal))
}

fn note(day: &day::Day, planned: &planning::Planned, tally: &mut Tally) {
    let greedy = build::build(day, 5 * day.stops.len()).expect("the room is enough");
    let has = |kind: u32, least: usize| {
        planned.words.iter().filter(|word| **word >> 28 == kind).count() >= least
    };
    let named = [
        ("settled", planned.settled && planned.trials > 0),
        ("not settled", !planned.settled),
        ("shorter than the greedy plan", planned.distance < greedy.distance),
        ("with fewer words than the greedy plan", planned.words.len() < greedy.words.len()),
        ("with more words than the greedy plan", planned.words.len() > greedy.words.len()),
        ("with several vehicles", has(0xA, 2)),
        ("with stops left out", has(0xF, 1) && has(0xB, 1)),
    ];
    named.iter().filter(|(_, met)| *met).for_each(|(name, _)| tally.note(name));
}
