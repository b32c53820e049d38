//! What a command ends with: an answer, or a failure with its exit status.

use crate::json::Json;
use crate::made_for::MadeFor;
use crate::refusals::Refused;
use crate::text::Faults;

/// What a command that succeeds hands over.
pub struct Answer {
    /// What a person is told.
    pub report: String,
    /// What a program is told, the product within it.
    pub json: Json,
    /// What goes into a file or a pipe.
    pub product: Option<Product>,
    /// What a user has to look at though there is an answer.
    pub warning: Option<String>,
}

impl Answer {
    /// An answer of which there is nothing to be kept in a file.
    pub fn told(report: String, json: Json) -> Answer {
        Answer { report, json, product: None, warning: None }
    }

    /// An answer with what goes into a file or a pipe.
    pub fn made(report: String, json: Json, product: Product) -> Answer {
        Answer { product: Some(product), ..Answer::told(report, json) }
    }

    /// The answer with a warning, where there is one.
    pub fn warned(self, warning: Option<String>) -> Answer {
        Answer { json: self.json.warned(warning.as_deref()), warning, ..self }
    }
}

/// A warning as a person is told it, on a line of its own.
pub fn warning_line(warning: Option<&str>) -> String {
    warning.map_or(String::new(), |warning| format!("kz: warning: {warning}\n"))
}

/// What goes into a file or a pipe.
pub enum Product {
    /// Words of a day or of a part of a plan, as raw bytes or hexadecimal lines.
    Words(Vec<u32>),
    /// Words of a plan, and the day that they were made for.
    Plan(Vec<u32>, MadeFor),
    /// A text, as it is.
    Text(String),
}

/// Why there is no answer.
#[derive(Debug)]
pub enum Failure {
    /// A day or plan breaks a rule: exit status 1.
    Refused(Box<Refused>),
    /// The call is wrong, and which command's help says how it goes: exit status 2.
    Call(String, Option<&'static str>),
    /// The system refuses something, most likely to read or write a file: exit status 2.
    System(String),
    /// Standard output takes nothing, and why. This is said on standard error also where the answer
    /// is for a program: exit status 2.
    Unprinted(String),
    /// The text of this file has faults: exit status 2.
    Text(String, Faults),
    /// Nobody reads what is printed any more. That is no fault: exit status 0.
    NobodyReads,
}

impl From<Refused> for Failure {
    fn from(refused: Refused) -> Failure {
        Failure::Refused(refused.into())
    }
}

impl Failure {
    /// The exit status.
    pub fn status(&self) -> u8 {
        match self {
            Failure::NobodyReads => 0,
            Failure::Refused(_) => 1,
            Failure::Call(..) | Failure::System(_) | Failure::Text(..) | Failure::Unprinted(_) => 2,
        }
    }

    /// What a person is told.
    pub fn report(&self) -> String {
        match self {
            Failure::NobodyReads => String::new(),
            Failure::Refused(refused) => {
                warning_line(refused.warning.as_deref()) + &format!("kz: {refused}\n")
            }
            Failure::System(what) => format!("kz: {what}\n"),
            Failure::Unprinted(why) => format!("kz: standard output can't be written: {why}\n"),
            Failure::Text(name, faults) => format!("kz: {name} can't be read: {faults}\n"),
            Failure::Call(what, command) => {
                let behind = command.map_or(String::new(), |name| format!("{name} "));
                format!("kz: {what}; `kz {behind}--help` says how it is called\n")
            }
        }
    }

    /// What a program is told.
    pub fn json(&self) -> Json {
        match self {
            Failure::Refused(refused) => {
                let json = Json::Object(vec![("refused", refused.json())]);
                json.warned(refused.warning.as_deref())
            }
            Failure::Call(what, _) | Failure::System(what) => {
                Json::Object(vec![("error", what.as_str().into())])
            }
            Failure::Text(name, faults) => Json::Object(vec![
                ("error", format!("{name} can't be read: {}", faults.first()).as_str().into()),
                ("faults", faults.json()),
                ("more", faults.more().into()),
            ]),
            Failure::Unprinted(_) | Failure::NobodyReads => Json::Object(vec![]),
        }
    }
}
