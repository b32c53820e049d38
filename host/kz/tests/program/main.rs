//! The program as a person uses it: each test runs `kz` and looks at what it prints, what it writes
//! and its exit status.

mod broken_texts;
mod calls;
mod day_m;
mod documents;
mod forms;
mod guides;
mod help;
mod installed;
mod interrupted;
mod json;
mod made_for;
mod outputs;
mod page;
mod planning;
mod refused;
mod refused_instances;
mod run;
mod scratch;
mod solomon;
#[path = "../svg/mod.rs"]
mod svg;
