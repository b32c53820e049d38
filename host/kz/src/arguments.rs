//! The arguments of a call, held against what its command has.

use std::ffi::{OsStr, OsString};

use crate::answer::Failure;
use crate::catalogue::{Command, Flag, HELP, JSON};
use crate::commands::COMMANDS;

/// What is asked of the program.
pub enum Request {
    /// A command with what it is given.
    Run(Call),
    /// The text of a command, or of the whole program.
    Help(Option<&'static Command>),
    /// The program's name and version.
    Version,
}

/// A command with what it is given.
pub struct Call {
    /// The command.
    pub command: &'static Command,
    operands: Vec<OsString>,
    options: Vec<(&'static Flag, OsString)>,
}

impl Call {
    /// An operand, where it was given.
    pub fn operand(&self, index: usize) -> Option<&OsStr> {
        self.operands.get(index).map(OsString::as_os_str)
    }

    /// The files that it reads.
    pub fn inputs(&self) -> impl Iterator<Item = &OsStr> {
        let given = self.command.operands.iter().zip(&self.operands);
        given.filter(|(operand, _)| operand.file).map(|(_, name)| name.as_os_str())
    }

    /// Whether an option was given.
    pub fn has(&self, flag: &Flag) -> bool {
        self.value(flag).is_some()
    }

    /// The value of an option, where it was given.
    pub fn value(&self, flag: &Flag) -> Option<&OsStr> {
        let given = self.options.iter().find(|(given, _)| given.name == flag.name);
        given.map(|(_, value)| value.as_os_str())
    }

    /// The number that an option has, where it was given.
    pub fn number(&self, flag: &Flag) -> Result<Option<u64>, Failure> {
        self.value(flag).map(|value| self.parse_number(flag.name, value)).transpose()
    }

    /// The number that an operand is.
    pub fn number_operand(&self, index: usize) -> Result<u64, Failure> {
        let value = self.operand(index).unwrap_or_default();
        self.parse_number(self.command.operands[index].name, value)
    }

    /// A fault of this call.
    pub fn wrong(&self, what: String) -> Failure {
        Failure::Call(what, Some(self.command.name))
    }

    fn parse_number(&self, what: &str, value: &OsStr) -> Result<u64, Failure> {
        let number = value.to_str().and_then(|text| text.parse().ok());
        number.ok_or_else(|| {
            self.wrong(format!("{what} has to be a whole number, not '{}'", value.display()))
        })
    }
}

/// Whether the answer is for a program, of a call that may be wrong otherwise.
pub fn wants_json(arguments: &[OsString]) -> bool {
    arguments.iter().take_while(|argument| *argument != "--").any(|given| given == JSON.name)
}

/// What these arguments ask for.
pub fn parse(arguments: &[OsString]) -> Result<Request, Failure> {
    let Some((first, rest)) = arguments.split_first() else {
        return Err(Failure::Call("no command is given".into(), None));
    };
    match first.to_string_lossy().as_ref() {
        "--help" | "-h" => Ok(Request::Help(None)),
        "help" => help(rest),
        "--version" | "-V" => Ok(Request::Version),
        name => command(name).and_then(|command| parse_call(command, rest)),
    }
}

fn help(rest: &[OsString]) -> Result<Request, Failure> {
    let named = rest.first().map(|name| command(&name.to_string_lossy())).transpose()?;
    Ok(Request::Help(named))
}

fn command(name: &str) -> Result<&'static Command, Failure> {
    let found = COMMANDS.iter().find(|command| command.name == name);
    found.ok_or_else(|| Failure::Call(format!("there is no command '{name}'"), None))
}

fn parse_call(command: &'static Command, rest: &[OsString]) -> Result<Request, Failure> {
    let mut call = Call { command, operands: vec![], options: vec![] };
    let mut rest = rest.iter();
    while let Some(argument) = rest.next() {
        match argument.to_str() {
            Some("--") => call.operands.extend(rest.by_ref().cloned()),
            Some(option) if option.len() > 1 && option.starts_with('-') => {
                take_option(&mut call, option, &mut rest)?;
            }
            None if argument.as_encoded_bytes().starts_with(b"-") => {
                let shown = argument.display();
                return Err(call.wrong(format!("'{shown}' is no option: it is not UTF-8")));
            }
            _ => call.operands.push(argument.clone()),
        }
    }
    if call.has(&HELP) {
        return Ok(Request::Help(Some(command)));
    }
    count_operands(&call)?;
    Ok(Request::Run(call))
}

/// Takes an option, whose value may stand in the same argument or in the next.
fn take_option<'a>(
    call: &mut Call,
    option: &str,
    rest: &mut impl Iterator<Item = &'a OsString>,
) -> Result<(), Failure> {
    let (flag, joined) = find_option(call, option)?;
    let value = match (flag.value, joined) {
        (None, None) => OsString::new(),
        (None, Some(_)) => return Err(call.wrong(format!("{} takes no value", flag.name))),
        (Some(_), Some(value)) => value.into(),
        (Some(value), None) => {
            let next = rest.next().cloned();
            next.ok_or_else(|| call.wrong(format!("{} lacks its {value}", flag.name)))?
        }
    };
    if call.has(flag) {
        return Err(call.wrong(format!("{} is given twice", flag.name)));
    }
    call.options.push((flag, value));
    Ok(())
}

/// The option of that name or letter, and the value that is joined to it.
fn find_option<'a>(
    call: &Call,
    option: &'a str,
) -> Result<(&'static Flag, Option<&'a str>), Failure> {
    let (name, joined) = match option.split_once('=') {
        Some((name, value)) if name.starts_with("--") => (name, Some(value)),
        _ => (option, None),
    };
    for flag in call.command.all_options() {
        if flag.name == name {
            return Ok((flag, joined));
        }
        let letter = flag.letter.map(|letter| format!("-{letter}"));
        if let Some(value) = letter.and_then(|letter| option.strip_prefix(&letter)) {
            return Ok((flag, (!value.is_empty()).then_some(value)));
        }
    }
    Err(call.wrong(format!("kz {} has no option '{name}'", call.command.name)))
}

fn count_operands(call: &Call) -> Result<(), Failure> {
    let (given, command) = (call.operands.len(), call.command);
    if given < command.needed() {
        return Err(call.wrong(format!("{} is missing", command.operands[given].name)));
    }
    if let Some(more) = call.operand(command.operands.len()) {
        return Err(call.wrong(format!("'{}' is one operand too many", more.display())));
    }
    if call.operands.iter().filter(|operand| *operand == "-").count() > 1 {
        return Err(call.wrong("standard input can be read only once".into()));
    }
    Ok(())
}
