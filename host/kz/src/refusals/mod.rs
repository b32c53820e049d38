//! Refusals as people read them: a sentence that names the stop, tip or vehicle, and behind it the
//! refusal's number and where the fault stands in which file.

mod day;
mod form;
mod plan;
mod solomon;
mod spot;

use std::fmt::{self, Display, Formatter};

use kazhuvendi::Refusal;

use crate::inputs::{GivenDay, GivenPlan, Named};
use crate::json::Json;

pub use solomon::refused as of_instance;
pub use spot::Spot;

/// A refusal with its sentence.
#[derive(Clone, Debug, PartialEq, Eq)]
pub struct Refused {
    /// The number and the place that the library gives.
    pub refusal: Refusal,
    /// What is wrong.
    pub sentence: String,
    /// Where the fault stands, if it stands in a file.
    pub spot: Option<Spot>,
    /// Where in the day's text the stop or tip stands that the sentence is about.
    pub day_spot: Option<Spot>,
    /// What else a user has to look at.
    pub warning: Option<String>,
}

impl Refused {
    /// A refusal with its sentence, and nothing said of where.
    fn of(refusal: Refusal, sentence: String) -> Refused {
        Refused { refusal, sentence, spot: None, day_spot: None, warning: None }
    }

    fn at(self, spot: Spot) -> Refused {
        Refused { spot: Some(spot), ..self }
    }

    /// Where the fault stands, by its line and the column where there is one.
    fn lines(&self, spot: &Spot) -> Vec<(&'static str, Json)> {
        if let Spot::Byte { line, column, .. } = spot {
            return vec![("line", (*line).into()), ("column", (*column).into())];
        }
        let name = if self.refusal.number <= 5 { "day_line" } else { "plan_line" };
        spot.line().map(|line| (name, line.into())).into_iter().collect()
    }

    /// As an object with number, place and sentence, and the lines where there are such.
    pub fn json(&self) -> Json {
        let mut members = vec![
            ("number", self.refusal.number.into()),
            ("place", self.refusal.place.into()),
            ("sentence", self.sentence.as_str().into()),
        ];
        members.extend(self.spot.as_ref().map(|spot| self.lines(spot)).unwrap_or_default());
        let day_line = self.day_spot.as_ref().and_then(Spot::line);
        members.extend(day_line.map(|line| ("day_line", line.into())));
        Json::Object(members)
    }
}

impl Display for Refused {
    fn fmt(&self, f: &mut Formatter<'_>) -> fmt::Result {
        write!(f, "{} (refusal {}", self.sentence, self.refusal.number)?;
        if let Some(spot) = &self.spot {
            write!(f, ", {spot}")?;
        }
        if let Some(spot) = &self.day_spot {
            write!(f, "; {spot}")?;
        }
        f.write_str(")")
    }
}

/// The refusal of bytes that end inside a word, behind so many `words`.
pub fn of_bytes(what: &str, words: u64, file: &Named) -> Refused {
    let bytes = file.bytes.len();
    let sentence = format!("the {what} has {bytes} bytes, which are no whole words of four bytes");
    Refused::of(Refusal { number: 1, place: words }, sentence).at(Spot::File(file.name.clone()))
}

/// The refusal of a day.
pub fn of_day(refusal: Refusal, day: &[u32], file: &Named) -> Refused {
    let sentence = day::sentence(refusal, day).unwrap_or_else(|| refusal.to_string());
    let spot = match refusal.number {
        1 | 4 => Spot::File(file.name.clone()),
        _ => file.spot(refusal.place as usize),
    };
    Refused::of(refusal, sentence).at(spot)
}

/// The refusal of a call that was given an accepted day and these plans. The places of the second
/// plan count on from the length of the first.
pub fn of_plans(refusal: Refusal, day: &GivenDay, plans: &[&GivenPlan]) -> Refused {
    let unlawful = plans.iter().find_map(|plan| {
        let found = kazhuvendi::check(&day.words, &plan.words).err()?;
        Some(Refused { refusal, ..plan::refused(found, day, plan) })
    });
    let refused = unlawful.unwrap_or_else(|| match (refusal.number, plans) {
        (13, _) => Refused::of(refusal, format!("K is {}, and has to be 1 to 50", refusal.place)),
        (15, [plan, ..]) => plan::no_vehicle(refusal, plan),
        _ => Refused::of(refusal, refusal.to_string()),
    });
    Refused { warning: GivenPlan::warning_of(plans), ..refused }
}
