//! Planning: the greedy build of a day, and what planning comes to.

use crate::{raw, Refusal};

/// What a plan that was written comes to.
#[derive(Clone, Copy, Debug, PartialEq, Eq)]
pub struct Planned {
    /// The sum of the distances of the legs driven.
    pub distance: u64,
    /// The trials made, of which the greedy build makes none.
    pub trials: u64,
    /// Whether all trials of the plan were made and none was kept. The greedy build does not say so.
    pub settled: bool,
    /// The stops left out.
    pub left_out: usize,
    /// The words of the plan, which stand at the beginning of the buffer.
    pub words: usize,
}

/// Writes the greedy plan of a day into `plan`, which needs 5 words for each stop of the day. From
/// the plan's end to there the buffer is zero then, and as it was beyond. The plan is lawful, and
/// leaves out only stops that no fresh vehicle could take first. Of equally near stops that fit a
/// vehicle chooses the one that closes first.
///
/// # Errors
///
/// The first of refusals 1 to 5 that applies to the day; then 14 where `plan` is too short.
///
/// ```
/// # let bytes = std::fs::read("../../examples/day-m.day")?;
/// # let mut day = [0; 31];
/// # kazhuvendi::read_words(&bytes, &mut day)?;
/// // Day M has two stops.
/// let mut plan = [9; 11];
/// let planned = kazhuvendi::build(&day, &mut plan)?;
/// assert_eq!((planned.distance, planned.left_out, planned.words), (35, 0, 7));
/// assert_eq!(
///     plan[..7],
///     [0xA0000001, 0xB0000001, 0xC0000001, 0xD0000000, 0xB0000002, 0xC0000001, 0xE0000000]
/// );
/// assert_eq!(plan[7..], [0, 0, 0, 9]);
///
/// let refusal = kazhuvendi::build(&day, &mut plan[..9]).unwrap_err();
/// assert_eq!((refusal.number, refusal.place), (14, 10));
/// # Ok::<(), Box<dyn std::error::Error>>(())
/// ```
pub fn build(day: &[u32], plan: &mut [u32]) -> Result<Planned, Refusal> {
    let mut out = [0; 6];
    raw::build(day, plan, &mut out);
    planned(out)
}

/// What the library says of a plan that it wrote.
pub(crate) fn planned(out: [u64; 6]) -> Result<Planned, Refusal> {
    match out {
        [0, distance, trials, settled, left_out, words] => Ok(Planned {
            distance,
            trials,
            settled: settled == 1,
            left_out: left_out as usize,
            words: words as usize,
        }),
        [number, place, ..] => Err(Refusal { number, place }),
    }
}
