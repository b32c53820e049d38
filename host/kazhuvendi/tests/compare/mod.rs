//! The library beside the second implementation: both get the same input, and their answers and
//! every lent buffer are compared. `days`, `plans`, `builds`, `trials` and `texts` beside this
//! file do it call by call.

mod tally;

use kazhuvendi::Refusal;

pub use tally::Tally;

pub fn as_refusal(refusal: reference::Refusal) -> Refusal {
    Refusal { number: refusal.number, place: refusal.place }
}
