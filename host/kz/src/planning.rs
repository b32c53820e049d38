//! Planning in steps of budget, so that it can be watched, and ended early with a plan in hand.
//!
//! Each step plans from the beginning with a larger budget. That is sound by demand 3 of document
//! 01, which the library is proved to meet: the plan of each budget is lawful, and with a larger
//! budget never longer than with a smaller one. So the plan of the last step that was finished is
//! one that a depot can use, the best so far. Since budgets double, all steps before the last take
//! together about as long as the last, and the plan that comes out at the end is exactly the one
//! that a single call gives. Of several ways to plan the shortest plan is kept.

use std::sync::mpsc::{channel, RecvTimeoutError, Sender};
use std::thread;
use std::time::Duration;

use kazhuvendi::{Planned, Refusal};

use crate::answer::Failure;
use crate::inputs::GivenDay;
use crate::interrupt;
use crate::neighbours::Neighbours;
use crate::refusals;

/// A budget that no planning uses up: the library always settles far below it.
pub const SETTLE: u64 = u64::MAX;

/// The budget of the first step behind the greedy plan's.
const FIRST: u64 = 1_000;

/// How often it is asked whether there was an interrupt.
const PATIENCE: Duration = Duration::from_millis(50);

/// The plan of one step.
pub struct Step {
    /// The way that it was planned.
    pub neighbours: Neighbours,
    /// What the plan comes to.
    pub planned: Planned,
    /// Its words.
    pub words: Vec<u32>,
}

/// What planning ends with.
pub struct Outcome {
    /// The last step that was finished of each way, in the order of the ways.
    pub last: Vec<Step>,
    /// The distance of the greedy plan, which every step begins with.
    pub greedy: u64,
    /// The steps behind the greedy plan's.
    pub steps: usize,
    /// How many of them gave a plan shorter than all before.
    pub kept: usize,
    /// Whether an interrupt ended it before the budget or the trials did.
    pub interrupted: bool,
}

impl Outcome {
    /// The greedy plan, with which every way begins.
    fn beginning(greedy: Step) -> Outcome {
        let distance = greedy.planned.distance;
        Outcome { last: vec![greedy], greedy: distance, steps: 0, kept: 0, interrupted: false }
    }

    /// The shortest plan; of plans as short that of the way named first.
    pub fn best(&self) -> &Step {
        let shortest = self.last.iter().min_by_key(|step| step.planned.distance);
        shortest.expect("a first step is always made")
    }

    /// The last steps of the other ways.
    pub fn others(&self) -> impl Iterator<Item = &Step> {
        let best = self.best().neighbours;
        self.last.iter().filter(move |step| step.neighbours != best)
    }

    /// One step more, in place of the one that its way had before.
    fn and(mut self, step: Step) -> Outcome {
        self.steps += 1;
        self.kept += usize::from(step.planned.distance < self.best().planned.distance);
        match self.last.iter_mut().find(|last| last.neighbours == step.neighbours) {
            Some(last) => *last = step,
            None => self.last.push(step),
        }
        self
    }
}

/// Plans a day in each of these ways, and shows each step that is finished.
pub fn run(
    day: &GivenDay,
    ways: &[Neighbours],
    budget: u64,
    mut show: impl FnMut(Neighbours, &Outcome),
) -> Result<Outcome, Failure> {
    interrupt::hold();
    let (sender, steps) = channel();
    let (words, stops, ways) = (day.words.clone(), day.stops, ways.to_vec());
    // The steps run beside, so that an interrupt is answered at once however long a step takes.
    thread::Builder::new()
        .spawn(move || make_steps(&words, stops, &ways, budget, &sender))
        .map_err(|error| Failure::System(format!("planning can't begin: {error}")))?;
    let mut so_far: Option<Outcome> = None;
    loop {
        match steps.recv_timeout(PATIENCE) {
            Ok(step) => {
                let step = step.map_err(|refusal| refusals::of_plans(refusal, day, &[]))?;
                let way = step.neighbours;
                let outcome = match so_far.take() {
                    None => Outcome::beginning(step),
                    Some(before) => before.and(step),
                };
                show(way, so_far.insert(outcome));
            }
            Err(RecvTimeoutError::Timeout) => {}
            Err(RecvTimeoutError::Disconnected) => {
                return Ok(so_far.expect("a first step is always made"));
            }
        }
        if let Some(outcome) = so_far.take_if(|_| interrupt::noted()) {
            return Ok(Outcome { interrupted: true, ..outcome });
        }
    }
}

/// Makes the greedy plan, and then steps of each way in turn, until each has had the whole budget or
/// is settled, or nobody waits for them.
fn make_steps(
    day: &[u32],
    stops: usize,
    ways: &[Neighbours],
    budget: u64,
    sender: &Sender<Result<Step, Refusal>>,
) {
    let mut share = 0;
    let mut going = Vec::from(&ways[..1]);
    while !going.is_empty() {
        let mut unsettled = vec![];
        for way in going {
            let step = step(day, stops, way, share);
            if matches!(&step, Ok(step) if share < budget && !step.planned.settled) {
                unsettled.push(way);
            }
            if sender.send(step).is_err() {
                return;
            }
        }
        // The greedy plan is the same for all ways, and so is whether it is settled.
        going = if share == 0 && !unsettled.is_empty() { ways.to_vec() } else { unsettled };
        share = share.saturating_mul(2).clamp(FIRST.min(budget), budget);
    }
}

fn step(day: &[u32], stops: usize, neighbours: Neighbours, budget: u64) -> Result<Step, Refusal> {
    let (mut words, mut work) = (vec![0; 5 * stops], vec![0; 5 * stops]);
    let planned = neighbours.plan(day, budget, &mut words, &mut work)?;
    words.truncate(planned.words);
    Ok(Step { neighbours, planned, words })
}
