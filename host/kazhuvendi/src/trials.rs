//! Planning with trials.

use crate::build::planned;
use crate::{raw, Planned, Refusal};

/// Writes a plan of a day into `plan`: the greedy plan, made shorter by trials. In a trial a stop
/// moves beside one of its `k` nearest neighbours on the same vehicle, or two neighbours on
/// different vehicles change places, or a tip is removed or replaced by another one; it is kept
/// where the plan is then lawful and its distance lower. Planning ends where no trial is left that
/// would be kept, which is said by `settled`, or where as many trials as `budget` were made.
///
/// The plan is lawful, never longer than the greedy plan, and leaves out the same stops. `plan` and
/// `work` need 5 words each for each stop of the day. From the plan's end to there `plan` is zero
/// then, and as it was beyond; what `work` holds then has no meaning.
///
/// # Errors
///
/// The first of refusals 1 to 5 that applies to the day; then 13 where `k` is not within 1 to 50;
/// then 14 where `plan` or `work` is too short.
///
/// ```
/// # let bytes = std::fs::read("../../examples/day-m.day")?;
/// # let mut day = [0; 31];
/// # kazhuvendi::read_words(&bytes, &mut day)?;
/// // Day M has two stops. Six trials are all that there are, and none makes its plan shorter.
/// let (mut plan, mut work) = ([9; 11], [0; 10]);
/// let planned = kazhuvendi::plan(&day, 5, 6, &mut plan, &mut work)?;
/// assert_eq!((planned.distance, planned.trials, planned.settled), (35, 6, true));
/// assert_eq!((planned.left_out, planned.words), (0, 7));
/// assert_eq!(
///     plan[..7],
///     [0xA0000001, 0xB0000001, 0xC0000001, 0xD0000000, 0xB0000002, 0xC0000001, 0xE0000000]
/// );
/// assert_eq!(plan[7..], [0, 0, 0, 9]);
///
/// let refusal = kazhuvendi::plan(&day, 51, 6, &mut plan, &mut work).unwrap_err();
/// assert_eq!((refusal.number, refusal.place), (13, 51));
/// # Ok::<(), Box<dyn std::error::Error>>(())
/// ```
pub fn plan(
    day: &[u32],
    k: u64,
    budget: u64,
    plan: &mut [u32],
    work: &mut [u32],
) -> Result<Planned, Refusal> {
    let mut out = [0; 6];
    raw::plan(day, k, budget, plan, work, &mut out);
    planned(out)
}

/// As [`plan`], with growing neighbour sets: trials begin with the 5 nearest neighbours of each
/// stop. Where none of them is kept, those with the 10, the 25 and the 50 nearest follow, which have
/// the earlier ones again; a trial that is kept returns to the 5 nearest. One budget covers all. A
/// plan is settled where no trial with any of the four would be kept.
///
/// # Errors
///
/// The first of refusals 1 to 5 that applies to the day; then 14 where `plan` or `work` is too
/// short.
///
/// ```
/// # let bytes = std::fs::read("../../examples/day-m.day")?;
/// # let mut day = [0; 31];
/// # kazhuvendi::read_words(&bytes, &mut day)?;
/// // Day M has two stops, so that each of the four has the same six trials.
/// let (mut plan, mut work) = ([9; 11], [0; 10]);
/// let planned = kazhuvendi::plan_growing(&day, 24, &mut plan, &mut work)?;
/// assert_eq!((planned.distance, planned.trials, planned.settled), (35, 24, true));
///
/// let planned = kazhuvendi::plan_growing(&day, 23, &mut plan, &mut work)?;
/// assert_eq!((planned.distance, planned.trials, planned.settled), (35, 23, false));
/// # Ok::<(), Box<dyn std::error::Error>>(())
/// ```
pub fn plan_growing(
    day: &[u32],
    budget: u64,
    plan: &mut [u32],
    work: &mut [u32],
) -> Result<Planned, Refusal> {
    let mut out = [0; 6];
    raw::plan_growing(day, budget, plan, work, &mut out);
    planned(out)
}
