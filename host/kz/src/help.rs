//! The help, made from the table of commands.

use crate::catalogue::{Command, EVERY};
use crate::commands::COMMANDS;

/// How wide a line may be.
const WIDTH: usize = 90;

/// What the program is, in one line.
pub const SUMMARY: &str = "a proved planner for commercial waste rounds";

/// What holds for every command, by heading and paragraphs.
pub const COMMON: &[(&str, &[&str])] = &[
    (
        "Files",
        &[
            "DAY and PLAN name files, and - stands for standard input. A file has its words as raw \
             bytes, low byte first, or as hexadecimal lines, one word a line; a DAY may also be in \
             text form, which begins with `day`, or a Solomon instance, which has the line VEHICLE. \
             Which it is shows in its content. FORMAT.md describes all of them.",
            "A file that is written is there whole or not at all: it is written beside its place \
             and then renamed.",
            "A plan has numbers and no names. So beside a plan that goes to FILE, FILE.made-for \
             says which day it was made for, and every command that is given the plan with a day \
             of other words warns on standard error. The answer and the exit status stay the same.",
        ],
    ),
    (
        "Exit status",
        &[
            "0: there is an answer. 1: a day or plan is refused; one sentence says why, and behind \
             it stand the refusal's number and the word or byte at fault. 2: the call is wrong, or a file \
             can't be read or written.",
            "With --json a refusal is an object with the member `refused`, anything else that is \
             wrong one with the member `error`. A warning is the member `warning`.",
        ],
    ),
    (
        "Documents",
        &[
            "Installed with kz, in share/doc/kazhuvendi beside the folder bin: GUIDE.md, a depot's \
             day from text to chart; FORMAT.md, days, plans and what is refused; INTEGRATE.md, \
             calling the library from C and Rust.",
        ],
    ),
];

/// The name and version.
pub fn version() -> String {
    format!("kz {}\n", env!("CARGO_PKG_VERSION"))
}

/// The help of the whole program.
pub fn overall() -> String {
    let mut text = format!("kz: {SUMMARY}\n\nUsage: kz COMMAND [OPTION]...\n\nCommands:\n");
    for command in COMMANDS {
        text += &entry(command.name, command.summary);
    }
    text += "\nOptions of every command:\n";
    for option in EVERY {
        text += &entry(&option.long_form(), option.about);
    }
    text += "\n`kz COMMAND --help` says more of a command, `kz --version` which version this is.\n";
    for (heading, paragraphs) in COMMON {
        let paragraphs: Vec<String> = paragraphs.iter().map(|text| wrapped(text, 2)).collect();
        text += &format!("\n{heading}:\n{}", paragraphs.join("\n"));
    }
    text
}

/// The help of a command.
pub fn of(command: &Command) -> String {
    let mut text = format!("kz {}: {}\n\n", command.name, command.summary);
    text += &wrapped(&format!("Usage: {}", command.usage()), 0);
    text += "\n";
    for operand in command.operands {
        text += &entry(operand.name, operand.about);
    }
    text += if command.operands.is_empty() { "Options:\n" } else { "\nOptions:\n" };
    for option in command.all_options() {
        text += &entry(&option.long_form(), option.about);
    }
    for paragraph in command.about {
        text += "\n";
        text += &wrapped(paragraph, 0);
    }
    text
}

/// A name with what it means beside it.
fn entry(name: &str, about: &str) -> String {
    const BESIDE: usize = 22;
    let about = wrapped(about, BESIDE);
    format!("  {name:<width$}{}", about.trim_start(), width = BESIDE - 2)
}

/// A paragraph on lines that begin with so many blanks.
fn wrapped(paragraph: &str, blanks: usize) -> String {
    let mut lines = vec![String::new()];
    for word in paragraph.split(' ') {
        let line = lines.last_mut().expect("there is always a line");
        if line.is_empty() {
            *line = format!("{:blanks$}{word}", "");
        } else if line.chars().count() + 1 + word.chars().count() <= WIDTH {
            *line += &format!(" {word}");
        } else {
            lines.push(format!("{:blanks$}{word}", ""));
        }
    }
    lines.join("\n") + "\n"
}
