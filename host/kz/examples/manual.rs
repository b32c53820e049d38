//! Prints the manual page or the completion for a shell, whichever is named.

use std::env;
use std::process::ExitCode;

use kz::{completion, manual};

fn main() -> ExitCode {
    let text = match env::args().nth(1).as_deref() {
        Some("man") => manual::page(),
        Some("bash") => completion::bash(),
        Some("zsh") => completion::zsh(),
        Some("fish") => completion::fish(),
        _ => {
            eprintln!("say which: man, bash, zsh or fish");
            return ExitCode::from(2);
        }
    };
    print!("{text}");
    ExitCode::SUCCESS
}
