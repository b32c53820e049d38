//! The neighbour sets that planning is asked for, and the call that plans with them.

use crate::day::Day;
use crate::plain;
use crate::planning::{self, Planned};
use crate::Refusal;

/// The neighbours that trials are made with.
#[derive(Clone, Copy, Debug, PartialEq, Eq)]
pub enum Sets {
    /// The K nearest of each stop.
    Nearest(u64),
    /// Growing neighbour sets.
    Growing,
}

impl Sets {
    /// K of each list of a plan, in the order of the lists.
    pub fn each_k(self) -> Vec<u64> {
        match self {
            Sets::Nearest(k) => vec![k],
            Sets::Growing => vec![5, 10, 25, 50],
        }
    }

    /// What the second implementation makes of an accepted day.
    pub fn plan(
        self,
        day: &Day,
        budget: u64,
        room: usize,
        work_room: usize,
    ) -> Result<Planned, Refusal> {
        match self {
            Sets::Nearest(k) => planning::plan(day, k, budget, room, work_room),
            Sets::Growing => planning::plan_growing(day, budget, room, work_room),
        }
    }

    /// What the plain path makes of a day, accepted or not.
    pub fn plan_plainly(
        self,
        day: &[u32],
        budget: u64,
        plan: &mut [u32],
        work: &mut [u32],
    ) -> Result<plain::Planned, Refusal> {
        match self {
            Sets::Nearest(k) => plain::plan(day, k, budget, plan, work),
            Sets::Growing => plain::plan_growing(day, budget, plan, work),
        }
    }
}
