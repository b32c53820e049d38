//! The days and plans that a call names: read from files or from standard input, in whichever form
//! they are.

use std::fs::File;
use std::io::{self, Read};

use kazhuvendi::Totals;

use crate::answer::Failure;
use crate::arguments::Call;
use crate::form::{self, Form};
use crate::made_for;
use crate::refusals::{self, Spot};
use crate::solomon::{self, Instance};
use crate::text::{self, Faults, Names, PlaceLines};
use crate::words::{self, NoWords};

/// No day and no plan is near this size; a file that never ends is not read to the end.
const MOST_BYTES: u64 = 16 << 20;

/// An accepted day.
pub struct GivenDay {
    /// The words of the day file.
    pub words: Vec<u32>,
    /// What its stops and tips are called.
    pub names: Names,
    /// How many stops there are.
    pub stops: usize,
    /// How many tips there are.
    pub tips: usize,
    /// The file that it was read from.
    pub file: String,
    /// Where in that file its tips and stops stand, if it is a text.
    pub lines: PlaceLines,
}

impl GivenDay {
    /// A day that came with names or without, where its words are accepted.
    pub fn of(words: Vec<u32>, names: Option<Names>, file: &Named) -> Result<GivenDay, Failure> {
        let size =
            kazhuvendi::judge(&words).map_err(|refusal| refusals::of_day(refusal, &words, file))?;
        let lines = names.as_ref().map(|_| PlaceLines::of(&file.bytes)).unwrap_or_default();
        let names = names.unwrap_or_else(|| Names::numbered(size.stops, size.tips));
        let file = file.name.clone();
        Ok(GivenDay { words, names, stops: size.stops, tips: size.tips, file, lines })
    }

    /// The day of a Solomon instance: its name, and numbers for its stops.
    fn of_instance(instance: Instance, file: &Named) -> Result<GivenDay, Failure> {
        let day = GivenDay::of(instance.words, None, file)?;
        let names = day.names.of_day(instance.name);
        Ok(GivenDay { names, lines: instance.lines, ..day })
    }

    /// What the day is called: its name if its text has one, or else its file.
    pub fn label(&self) -> &str {
        match self.names.day() {
            "" => &self.file,
            name => name,
        }
    }
}

/// A plan, lawful or not.
pub struct GivenPlan {
    /// Its words.
    pub words: Vec<u32>,
    /// The file that it was read from.
    pub file: Named,
    /// What a user has to know where it was made for another day.
    pub warning: Option<String>,
}

impl GivenPlan {
    /// The warnings of all these plans together.
    pub fn warning_of(plans: &[&GivenPlan]) -> Option<String> {
        let warnings: Vec<&str> = plans.iter().filter_map(|plan| plan.warning.as_deref()).collect();
        (!warnings.is_empty()).then(|| warnings.join("; "))
    }
}

/// The day that is the first operand of a call.
pub fn day(call: &Call) -> Result<GivenDay, Failure> {
    let file = Named::read(call, 0)?;
    match form::of(&file.bytes) {
        Form::Solomon => {
            let instance = solomon::read(&file.bytes);
            let instance = instance.map_err(|refusal| refusals::of_instance(refusal, &file))?;
            GivenDay::of_instance(instance, &file)
        }
        Form::Text => {
            let day = text::of_bytes(&file.bytes).map_err(|faults| file.faulty(faults))?;
            GivenDay::of(day.words, Some(day.names), &file)
        }
        _ => GivenDay::of(file.words("day")?, None, &file),
    }
}

/// The Solomon instance that is the first operand of a call, as a day. Where the library refuses a
/// file that is something else, that is what is said.
pub fn instance(call: &Call) -> Result<GivenDay, Failure> {
    let file = Named::read(call, 0)?;
    match solomon::read(&file.bytes) {
        Ok(instance) => GivenDay::of_instance(instance, &file),
        Err(refusal) => Err(match no_instance(&file.bytes) {
            Some(why) => file.unreadable(why),
            None => refusals::of_instance(refusal, &file).into(),
        }),
    }
}

/// What a file is that is no Solomon instance, and what to do with it.
fn no_instance(bytes: &[u8]) -> Option<String> {
    const TAKEN: &str = "every command that takes a DAY takes";
    match form::of(bytes) {
        _ if bytes.trim_ascii().is_empty() => None,
        Form::Foreign(other) => Some(format!("this is {other}; a Solomon instance is plain text")),
        Form::Raw | Form::Lines => {
            Some(format!("these are words and no text; {TAKEN} the words of a day as they are"))
        }
        Form::Text if text::is_utf16(bytes) => {
            Some("this text is saved as UTF-16: save it as UTF-8".into())
        }
        Form::Text if solomon::is_day(bytes) => Some(format!(
            "this is a day in text; kz pack writes its words, and {TAKEN} it as it is"
        )),
        Form::Text | Form::Solomon => None,
    }
}

/// The plan that is this operand of a call, where it is lawful, and what it comes to.
pub fn lawful_plan(
    call: &Call,
    operand: usize,
    day: &GivenDay,
) -> Result<(GivenPlan, Totals), Failure> {
    let plan = plan(call, operand, day)?;
    let totals = kazhuvendi::check(&day.words, &plan.words)
        .map_err(|refusal| refusals::of_plans(refusal, day, &[&plan]))?;
    Ok((plan, totals))
}

/// The plan that is this operand of a call, which takes it for a plan of this day.
pub fn plan(call: &Call, operand: usize, day: &GivenDay) -> Result<GivenPlan, Failure> {
    let file = Named::read(call, operand)?;
    let name = call.operand(operand).filter(|name| *name != "-");
    let warning = name.and_then(|name| made_for::warning(name, day));
    Ok(GivenPlan { words: file.words("plan")?, file, warning })
}

/// The bytes of a file, and what it is called.
pub struct Named {
    /// What messages call it.
    pub name: String,
    /// All that it holds.
    pub bytes: Vec<u8>,
}

impl Named {
    fn read(call: &Call, operand: usize) -> Result<Named, Failure> {
        let name = call.operand(operand).unwrap_or_default();
        let (name, read) = if name == "-" {
            ("standard input".to_string(), bytes_of(io::stdin().lock()))
        } else {
            (name.display().to_string(), File::open(name).and_then(bytes_of))
        };
        let mut file = Named { name, bytes: vec![] };
        file.bytes = read.map_err(|error| file.unreadable(error.to_string()))?;
        if file.bytes.len() as u64 > MOST_BYTES {
            return Err(file.unreadable("it is longer than any day or plan".into()));
        }
        Ok(file)
    }

    /// The words that these bytes are. `what` they are meant to be is said where they are none.
    fn words(&self, what: &str) -> Result<Vec<u32>, Failure> {
        words::read(&self.bytes).map_err(|fault| match fault {
            NoWords::CutAt(words) => refusals::of_bytes(what, words, self).into(),
            NoWords::Line(line, text) => self.unreadable(format!(
                "line {line}, column 1: \"{text}\" is no word of eight hexadecimal digits"
            )),
            NoWords::Text => self.faulty(text::no_plan(&self.bytes).into()),
            NoWords::Foreign(other) => {
                self.unreadable(format!("this is {other}; {}", wanted(what)))
            }
        })
    }

    /// Where one of its words stands.
    pub fn spot(&self, word: usize) -> Spot {
        let line = words::line_of(&self.bytes, word);
        Spot::Word { word, line, file: self.name.clone() }
    }

    fn faulty(&self, faults: Faults) -> Failure {
        Failure::Text(self.name.clone(), faults)
    }

    fn unreadable(&self, why: String) -> Failure {
        Failure::System(format!("{} can't be read: {why}", self.name))
    }
}

/// What to give instead of another program's file.
fn wanted(what: &str) -> &'static str {
    if what == "day" {
        "a day is plain text in UTF-8: the guide shows what one looks like"
    } else {
        "a plan is wanted here, which kz plan and kz build write"
    }
}

fn bytes_of(source: impl Read) -> io::Result<Vec<u8>> {
    let mut bytes = vec![];
    source.take(MOST_BYTES + 1).read_to_end(&mut bytes)?;
    Ok(bytes)
}
