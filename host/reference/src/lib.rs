//! The second implementation: what the planner should answer, written from documents 01 and 02
//! alone.
//!
//! It goes another road than the proved library. A day is read front to back into [`day::Day`],
//! a structure of stops, tips and legs, and not by working out where in the file a field stands.
//! A plan is not walked at its earliest minutes: [`check`] asks each rule by itself for the first
//! word that breaks it, and [`timetable`] looks for minutes from the last word backwards. The
//! greedy build, [`build`], carries nothing along: it replays a vehicle from the depot for each
//! question, and sorts what could come next. So does [`planning`], which takes a plan apart for each
//! of its [`trials`], puts it together whole and has it checked afresh. Of a Solomon instance
//! [`solomon`] collects all that is wrong in the text, and then takes what counts first. It is there
//! to be compared with, so it is written to be read and not to be fast; [`plain`] is the ordinary Rust
//! that the benchmark sets beside the library.
//!
//! Beside it stand the answers that were worked out by hand, and days, plans and texts made up at
//! random to compare the two on.

pub mod build;
pub mod build_days;
pub mod bytes;
pub mod check;
mod cursor;
pub mod damage;
pub mod day;
pub mod drafts;
pub mod files;
pub mod lent;
pub mod limits;
pub mod plain;
pub mod plan;
pub mod plan_damage;
pub mod planning;
pub mod random;
pub mod rounds;
pub mod run;
pub mod samples;
pub mod sets;
pub mod solomon;
pub mod solomon_texts;
pub mod timetable;
pub mod trial_days;
pub mod trials;
pub mod word;
pub mod workdays;
pub mod worked;
pub mod worked_builds;
pub mod worked_plans;
pub mod worked_texts;
pub mod worked_trials;

/// "Each refusal returns its number and a place."
#[derive(Clone, Copy, Debug, PartialEq, Eq)]
pub struct Refusal {
    /// The number: 1 to 15, 17 or 18.
    pub number: u64,
    /// The first offending word's index, or what documents 01 and 02 note for this number.
    pub place: u64,
}
