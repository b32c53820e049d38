//! The commands, one file each.

mod build;
mod chart;
mod check;
mod demo;
mod import;
mod pack;
mod plan;
mod same;
mod show;
mod unpack;
mod vehicle;

use crate::catalogue::Command;

/// All commands, in the order in which the help names them.
pub const COMMANDS: &[Command] = &[
    check::COMMAND,
    build::COMMAND,
    plan::COMMAND,
    vehicle::COMMAND,
    same::COMMAND,
    show::COMMAND,
    chart::COMMAND,
    pack::COMMAND,
    unpack::COMMAND,
    import::COMMAND,
    demo::COMMAND,
];
