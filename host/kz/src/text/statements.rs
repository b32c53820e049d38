//! The statements of a text: what no vehicle may pass, the depot and the rest, the tips and the
//! stops.

use super::draft::Draft;
use super::error::{Spot, TextError};
use super::fields::{Field, Fields};
use super::times::looks_like_window;
use super::values::Site;
use super::HEADING;
use crate::day::{range, Stop};

/// What a line behind `day` begins with.
const STATEMENTS: [&str; 8] =
    ["load", "load-a-day", "stops-a-day", "depot", "rest", "tip", "stop", "legs"];

/// The statement that a word is, perhaps in capital letters.
pub(super) fn known(word: &str) -> Option<&'static str> {
    STATEMENTS.into_iter().find(|statement| word.eq_ignore_ascii_case(statement))
}

/// What is wrong with a word that is no statement.
pub(super) fn unknown(word: &str) -> String {
    if word == HEADING {
        return "the line with day stands first, and there is only one".to_string();
    }
    let (last, others) = STATEMENTS.split_last().expect("there are statements");
    format!("a line begins with {} or {last}, not \"{word}\"", others.join(", "))
}

/// Takes one statement into the draft.
pub(super) fn say(
    draft: &mut Draft,
    statement: &'static str,
    spot: Spot,
    fields: &mut Fields<'_>,
) -> Result<(), TextError> {
    let day = &mut draft.day;
    match statement {
        "load" => day.load_limit = fields.amount("the load", range::LOAD, "kg")?,
        "load-a-day" => {
            day.day_load_limit = fields.amount("the load a day", range::DAY_LOAD, "kg")?;
        }
        "stops-a-day" => day.day_stop_limit = fields.number("stops a day", range::DAY_STOPS)?,
        "depot" => {
            draft.depot_site = Some(Site { position: None, spot, faulty: true });
            day.depot = fields.window("the depot's window")?;
            draft.depot_site = Some(fields.site()?);
        }
        "rest" => {
            day.rest = fields.window("the rest window")?;
            day.rest_minutes = fields.amount("the rest", range::SERVICE, "min")?;
        }
        "tip" => tip(draft, spot, fields)?,
        _ => stop(draft, spot, fields)?,
    }
    Ok(())
}

fn tip(draft: &mut Draft, spot: Spot, fields: &mut Fields<'_>) -> Result<(), TextError> {
    if draft.day.tips.len() == *range::TIPS.end() {
        return too_many(draft, "tip", *range::TIPS.end(), spot, fields);
    }
    let name = name(draft, "tip", fields)?;
    draft.add_tip(name.text, spot);
    let (visit, site) = (fields.visit()?, fields.site()?);
    draft.finish_tip(visit, site);
    Ok(())
}

fn stop(draft: &mut Draft, spot: Spot, fields: &mut Fields<'_>) -> Result<(), TextError> {
    if draft.day.stops.len() == *range::STOPS.end() {
        return too_many(draft, "stop", *range::STOPS.end(), spot, fields);
    }
    let name = name(draft, "stop", fields)?;
    draft.add_stop(name.text, spot);
    let visit = fields.visit()?;
    let quantity = fields.amount("the quantity", range::QUANTITY, "kg")?;
    draft.finish_stop(Stop { quantity, visit }, fields.site()?);
    Ok(())
}

/// Passes over a tip or stop that the day has no room for. The first one is told.
fn too_many(
    draft: &mut Draft,
    what: &'static str,
    most: usize,
    spot: Spot,
    fields: &mut Fields<'_>,
) -> Result<(), TextError> {
    draft.has_gaps = true;
    fields.skip();
    if draft.full_of.replace(what) == Some(what) {
        return Ok(());
    }
    Err(spot.error(format!("a day has at most {most} {what}s")))
}

/// The name of one more tip or stop.
fn name<'t>(
    draft: &mut Draft,
    what: &str,
    fields: &mut Fields<'t>,
) -> Result<Field<'t>, TextError> {
    let name = fields.name(&format!("the name of the {what}")).and_then(|name| {
        fields.name_ends(&name, before_window(fields.left()))?;
        Ok(name)
    });
    draft.has_gaps |= name.is_err();
    let name = name?;
    let only_one = draft.name(name.text, name.spot);
    fields.noting(only_one, ());
    Ok(name)
}

/// How many fields stand before the window, if there is one.
fn before_window(fields: &[Field<'_>]) -> usize {
    let by_clock = |field: &Field<'_>| looks_like_window(field) && field.text.contains(':');
    let window = fields.iter().position(by_clock);
    window.or_else(|| fields.iter().position(looks_like_window)).unwrap_or(0)
}
