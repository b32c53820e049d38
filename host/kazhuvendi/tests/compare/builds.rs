//! The greedy build: both get the same day and a plan buffer of the same length.

use kazhuvendi::{Planned, Refusal};
use reference::build::{build, Built};
use reference::build_days::random_file;
use reference::day;
use reference::lent::{random_room, Lent};
use reference::random::Random;

use crate::compare::{as_refusal, Tally};
use crate::written::{assert_lawful, words_of_no_meaning, write_plan};

/// A day, accepted or not, and a buffer that is often of just the length that the day needs.
pub fn round(random: &mut Random, tally: &mut Tally) {
    let words = random_file(random);
    let needed = 5 * day::read(&words).map_or(0, |day| day.stops.len());
    let room = random_room(random, needed);
    build_alike(&words, room, random, tally);
}

/// The buffer holds words of no meaning before. After a plan it is zero from the plan's end to 5n
/// and as before beyond; after a refusal all of it is as before.
pub fn build_alike(words: &[u32], room: usize, random: &mut Random, tally: &mut Tally) {
    let mut plan = words_of_no_meaning(random, room);
    let lent_day = Lent::new(words, words.len() % 8);
    let mut lent_plan = Lent::new(&plan, random.below(8));
    let answer = kazhuvendi::build(lent_day.items(), lent_plan.items_mut());
    let expected = day::read(words).and_then(|day| {
        let built = build(&day, room)?;
        write_plan(&mut plan, &built.words, day.stops.len());
        Ok(built)
    });
    assert_eq!(answer, expected_answer(&expected), "room {room}, {words:X?}");
    lent_day.assert_holds(words);
    lent_plan.assert_holds(&plan);
    if let Ok(planned) = answer {
        assert_lawful(words, &lent_plan.items()[..planned.words], planned);
    }
    tally.add(answer.map(|_| "plans built"));
    note(&expected, tally);
}

fn expected_answer(expected: &Result<Built, reference::Refusal>) -> Result<Planned, Refusal> {
    let planned = |built: &Built| Planned {
        distance: built.distance,
        trials: 0,
        settled: false,
        left_out: built.left_out as usize,
        words: built.words.len(),
    };
    expected.as_ref().map(planned).map_err(|refusal| as_refusal(*refusal))
}

fn note(expected: &Result<Built, reference::Refusal>, tally: &mut Tally) {
    let Ok(built) = expected else { return };
    let has = |kind: u32, least: usize| {
        built.words.iter().filter(|word| **word >> 28 == kind).count() >= least
    };
    let rests_first =
        built.words.windows(2).any(|pair| pair[0] >> 28 == 0xA && pair[1] >> 28 == 0xD);
    let named = [
        ("with several vehicles", has(0xA, 2)),
        ("with several tips", has(0xC, 2)),
        ("with stops left out", has(0xF, 1) && has(0xB, 1)),
        ("with no stop left out", has(0xB, 1) && !has(0xF, 1)),
        ("with a rest before the first stop", rests_first),
        ("with no rest", has(0xB, 1) && !has(0xD, 1)),
        ("with 100 stops served", has(0xB, 100)),
    ];
    named.iter().filter(|(_, met)| *met).for_each(|(name, _)| tally.note(name));
}
