//! What a command is: its name, what stands behind it, its options and its text. The parser, the
//! help, the manual page and the completions all go by these.

use crate::answer::{Answer, Failure};
use crate::arguments::Call;

/// One command of the program.
pub struct Command {
    /// The word behind `kz`.
    pub name: &'static str,
    /// What it does, in one line.
    pub summary: &'static str,
    /// What stands behind the name, in order.
    pub operands: &'static [Operand],
    /// Its options, beside those that [`EVERY`] command has.
    pub options: &'static [&'static Flag],
    /// What a user has to know, by paragraphs.
    pub about: &'static [&'static str],
    /// Does it.
    pub run: fn(&Call) -> Result<Answer, Failure>,
}

impl Command {
    /// All options that the command has.
    pub fn all_options(&self) -> impl Iterator<Item = &'static Flag> {
        self.options.iter().chain(EVERY).copied()
    }

    /// How many operands have to be given.
    pub fn needed(&self) -> usize {
        self.operands.iter().filter(|operand| !operand.optional).count()
    }

    /// How the command is called.
    pub fn usage(&self) -> String {
        let mut usage = format!("kz {}", self.name);
        for operand in self.operands {
            let Operand { name, optional, .. } = operand;
            usage += &if *optional { format!(" [{name}]") } else { format!(" {name}") };
        }
        for option in self.options {
            usage += &format!(" [{}]", option.short_form());
        }
        usage
    }
}

/// What stands behind a command's name.
pub struct Operand {
    /// The name that the help has for it.
    pub name: &'static str,
    /// What it is.
    pub about: &'static str,
    /// Whether it may be left away.
    pub optional: bool,
    /// Whether it names a file that is read.
    pub file: bool,
}

/// An option.
#[derive(Debug)]
pub struct Flag {
    /// Its long name, with both hyphens.
    pub name: &'static str,
    /// Its letter, where it has one.
    pub letter: Option<char>,
    /// What the help calls its value, where it has one.
    pub value: Option<&'static str>,
    /// What it does.
    pub about: &'static str,
}

impl Flag {
    /// The option as a call has it, by its letter where it has one.
    pub fn short_form(&self) -> String {
        let name = self.letter.map_or(self.name.to_string(), |letter| format!("-{letter}"));
        self.with_value(name)
    }

    /// The option by all its names.
    pub fn long_form(&self) -> String {
        let letter = self.letter.map_or(String::new(), |letter| format!("-{letter}, "));
        self.with_value(letter + self.name)
    }

    fn with_value(&self, name: String) -> String {
        self.value.map_or(name.clone(), |value| format!("{name} {value}"))
    }
}

/// The options of every command.
pub const EVERY: &[&Flag] = &[&JSON, &HELP];

/// The answer for programs.
pub const JSON: Flag = Flag {
    name: "--json",
    letter: None,
    value: None,
    about: "print the answer, or the refusal, as one JSON object on standard output",
};

/// The text of the command.
pub const HELP: Flag =
    Flag { name: "--help", letter: Some('h'), value: None, about: "print this text" };

/// Words to be read by people.
pub const HEX: Flag = Flag {
    name: "--hex",
    letter: None,
    value: None,
    about: "write words as hexadecimal lines, one word a line, instead of raw bytes",
};

/// Where the product goes.
pub const OUTPUT: Flag = Flag {
    name: "--output",
    letter: Some('o'),
    value: Some("FILE"),
    about: "write there instead of to standard output, which is also what - stands for",
};

/// The day that a command is about.
pub const DAY: Operand = Operand {
    name: "DAY",
    about: "a day: its words as raw bytes or hexadecimal lines, its text form, or a Solomon \
            instance; - is standard input",
    optional: false,
    file: true,
};

/// The plan that a command is about.
pub const PLAN: Operand = Operand {
    name: "PLAN",
    about: "a plan: its words as raw bytes or hexadecimal lines; - is standard input",
    optional: false,
    file: true,
};
