//! The manual page, made from the table of commands and the texts of the help.

use crate::catalogue::{Command, EVERY};
use crate::commands::COMMANDS;
use crate::help::{COMMON, SUMMARY};

/// Calls that a user begins with, and what they do.
const EXAMPLES: &[(&str, &str)] = &[
    ("kz demo -o day.svg", "Plans the sample day and draws it."),
    ("kz pack depot.txt -o depot.day", "Makes a day file of a day in text form."),
    ("kz plan depot.day -o depot.plan", "Plans it until no trial makes the plan shorter."),
    ("kz check depot.day depot.plan", "Checks the plan, as it would check one from anywhere."),
    ("kz show depot.txt depot.plan", "Shows what each vehicle does and when."),
    ("kz chart depot.txt depot.plan -o day.svg", "Draws the day."),
    ("kz import c101.txt -o c101.day", "Makes a day file of a Solomon instance."),
    ("kz plan depot.day | kz check depot.day -", "Plans and checks without a file between."),
];

/// The page, as `man` reads it.
pub fn page() -> String {
    let mut page = String::from(".\\\" Written by `make manual` from the program's own table.\n");
    page += &format!(".TH KZ 1 \"\" \"kz {}\" \"User commands\"\n", env!("CARGO_PKG_VERSION"));
    page += &format!(".SH NAME\nkz \\- {}\n", escaped(SUMMARY));
    page += ".SH SYNOPSIS\n.B kz\n.I COMMAND\n.RI [ OPTION ]...\n";
    page += ".br\n.B kz \\-\\-help\n.br\n.B kz help\n.I COMMAND\n.br\n.B kz \\-\\-version\n";
    page += ".SH COMMANDS\n";
    COMMANDS.iter().for_each(|command| page += &command_part(command));
    page += ".SH OPTIONS OF EVERY COMMAND\n";
    EVERY.iter().for_each(|option| page += &tagged(&option.long_form(), option.about));
    for (heading, paragraphs) in COMMON {
        page += &format!(".SH {}\n", heading.to_uppercase());
        paragraphs.iter().for_each(|text| page += &paragraph(text));
    }
    page += ".SH EXAMPLES\n";
    EXAMPLES.iter().for_each(|(call, about)| page += &tagged(call, about));
    page
}

fn command_part(command: &Command) -> String {
    let mut part = format!(".SS {}\n{}.\n", escaped(&command.usage()), escaped(command.summary));
    for operand in command.operands {
        part += &tagged(operand.name, operand.about);
    }
    for option in command.options {
        part += &tagged(&option.long_form(), option.about);
    }
    command.about.iter().for_each(|text| part += &paragraph(text));
    part
}

/// A name with what it means below it.
fn tagged(name: &str, about: &str) -> String {
    format!(".TP\n.B {}\n{}\n", escaped(name), escaped(about))
}

fn paragraph(text: &str) -> String {
    format!(".PP\n{}\n", escaped(text))
}

/// Hyphens that stay hyphens when they are copied, and no line that begins with a request.
fn escaped(text: &str) -> String {
    let text = text.replace('\\', "\\e").replace('-', "\\-");
    if text.starts_with(['.', '\'']) {
        return format!("\\&{text}");
    }
    text
}
