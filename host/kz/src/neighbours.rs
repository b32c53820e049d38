//! How many nearest stops each stop is tried beside.

use std::fmt::{self, Display, Formatter};

use kazhuvendi::{Planned, Refusal};

use crate::json::Json;

/// How growing neighbour sets are named in calls and answers.
pub const GROWING: &str = "5-50";

/// A way to plan with trials.
#[derive(Clone, Copy, Debug, PartialEq, Eq)]
pub enum Neighbours {
    /// Growing sets: 5 at first, and 10, 25 and 50 where no trial with fewer is kept.
    Growing,
    /// So many from beginning to end.
    Fixed(u64),
}

/// The ways that are gone where the call does not say: either may give the shorter plan.
pub const USUAL: &[Neighbours] = &[Neighbours::Growing, Neighbours::Fixed(50)];

impl Neighbours {
    /// Plans a day this way, in one call of the library.
    pub fn plan(
        self,
        day: &[u32],
        budget: u64,
        plan: &mut [u32],
        work: &mut [u32],
    ) -> Result<Planned, Refusal> {
        match self {
            Neighbours::Growing => kazhuvendi::plan_growing(day, budget, plan, work),
            Neighbours::Fixed(k) => kazhuvendi::plan(day, k, budget, plan, work),
        }
    }

    /// Each K, for programs.
    pub fn json(self) -> Json {
        let each = match self {
            Neighbours::Growing => vec![5, 10, 25, 50],
            Neighbours::Fixed(k) => vec![k],
        };
        Json::List(each.into_iter().map(Json::Number).collect())
    }
}

impl Display for Neighbours {
    fn fmt(&self, to: &mut Formatter) -> fmt::Result {
        match self {
            Neighbours::Growing => write!(to, "K {GROWING}"),
            Neighbours::Fixed(k) => write!(to, "K {k}"),
        }
    }
}
