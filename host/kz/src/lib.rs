//! The command line `kz`: days and plans in files, planned and checked by the proved library, and
//! shown so that a person can read them.

pub mod answer;
pub mod arguments;
pub mod catalogue;
pub mod chart;
pub mod clock;
pub mod commands;
pub mod completion;
pub mod day;
pub mod depot;
pub mod draws;
pub mod form;
pub mod harbour;
pub mod help;
pub mod inputs;
pub mod interrupt;
pub mod json;
pub mod made_for;
pub mod manual;
pub mod neighbours;
pub mod output;
pub mod planning;
pub mod plans;
pub mod program;
pub mod progress;
pub mod refusals;
pub mod sheet;
pub mod sheet_json;
pub mod solomon;
pub mod table;
pub mod text;
pub mod unnamed;
pub mod words;
