//! `kz`, the command line of the planner. All that it does is in the library beside it.

use std::env;
use std::ffi::OsString;
use std::process::ExitCode;

fn main() -> ExitCode {
    let arguments: Vec<OsString> = env::args_os().skip(1).collect();
    ExitCode::from(kz::program::run(&arguments))
}
