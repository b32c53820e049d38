//! How ways become legs: what `legs by coordinates` says behind it.

use super::error::TextError;
use super::fields::Fields;
use crate::day::{range, Leg};

/// What coordinates are given in.
#[derive(Clone, Copy, Debug, PartialEq, Eq)]
pub(super) enum Unit {
    Kilometres,
    Metres,
    /// Latitude and longitude.
    Degrees,
}

impl Unit {
    pub fn name(self) -> &'static str {
        match self {
            Unit::Kilometres => "km",
            Unit::Metres => "m",
            Unit::Degrees => "degrees",
        }
    }
}

/// `km 28 km/h detour 1.35`, and perhaps `distance in 10 m`.
#[derive(Clone, Copy, Debug)]
pub(super) struct Measure {
    pub unit: Unit,
    /// The speed in km/h.
    pub speed: u32,
    /// The detour factor in hundredths.
    pub detour: u32,
    /// How many metres a distance of 1 stands for.
    pub metres: u32,
}

impl Measure {
    pub fn read(fields: &mut Fields<'_>) -> Result<Measure, TextError> {
        let field = fields.next("the unit of the coordinates, km, m or degrees,")?;
        let units = [Unit::Kilometres, Unit::Metres, Unit::Degrees];
        let unit = units.into_iter().find(|unit| unit.name() == field.text).ok_or_else(|| {
            let other = field.text;
            field.error(format!("coordinates are in km, m or degrees, not in \"{other}\""))
        })?;
        let speed = fields.amount("the speed", 1..=200, "km/h")?;
        fields.expect("detour")?;
        let detour = fields.hundredths("the detour factor", 100..=999)?;
        let mut metres = 1;
        if fields.take("distance").is_some() {
            fields.expect("in")?;
            metres = fields.amount("the unit of distance", 1..=MOST_METRES, "m")?;
        }
        fields.finish()?;
        Ok(Measure { unit, speed, detour, metres })
    }

    /// The leg of a way in metres, the detour in it. Its minutes are those of that way at the
    /// speed; both are rounded up. Where a leg cannot hold them: what to say about it.
    pub fn leg(&self, way: u64) -> Result<Leg, String> {
        let distance = way.div_ceil(self.metres.into());
        let minutes = (way * 60).div_ceil(u64::from(self.speed) * 1_000);
        let (most, longest) = (*range::DISTANCE.end(), *range::MINUTE.end());
        let held = |value: u64, most: u32| u32::try_from(value).ok().filter(|value| *value <= most);
        let check = "check the coordinates and their unit";
        Ok(Leg {
            minutes: held(minutes, longest).ok_or_else(|| {
                format!(
                    "{minutes} minutes, and a leg holds at most {longest}: {check}, and the speed"
                )
            })?,
            distance: held(distance, most).ok_or_else(|| {
                let counted = match self.metres {
                    1 => format!("{way} metres"),
                    metres => format!("{distance} times {metres} metres"),
                };
                let cure = larger(way).map_or(String::new(), |metres| {
                    format!(", or end the line with legs with \"distance in {metres} m\"")
                });
                format!("{counted}, and a leg holds at most {most}: {check}{cure}")
            })?,
        })
    }
}

/// The largest unit of distance, in metres.
const MOST_METRES: u32 = 1_000;

/// The least unit of distance, 10, 100 or 1000 metres, in which a leg can hold a way.
fn larger(way: u64) -> Option<u32> {
    let fits = |metres: &u32| way.div_ceil((*metres).into()) <= (*range::DISTANCE.end()).into();
    [10, 100, MOST_METRES].into_iter().find(fits)
}

#[cfg(test)]
mod tests {
    use super::*;

    fn leg(speed: u32, metres: u32, way: u64) -> Result<Leg, String> {
        Measure { unit: Unit::Kilometres, speed, detour: 100, metres }.leg(way)
    }

    #[test]
    fn distance_and_minutes_are_rounded_up() {
        assert_eq!(leg(30, 1, 5_000), Ok(Leg { minutes: 10, distance: 5_000 }));
        assert_eq!(leg(30, 1, 5_001), Ok(Leg { minutes: 11, distance: 5_001 }));
        assert_eq!(leg(30, 10, 5_001), Ok(Leg { minutes: 11, distance: 501 }));
        assert_eq!(leg(30, 1_000, 0), Ok(Leg { minutes: 0, distance: 0 }));
    }

    #[test]
    fn what_a_leg_cannot_hold_is_said_with_what_to_do() {
        assert_eq!(leg(200, 1, 65_535), Ok(Leg { minutes: 20, distance: 65_535 }));
        let refused = |speed, metres, way| leg(speed, metres, way).expect_err("too long");
        assert_eq!(
            refused(200, 1, 65_536),
            "65536 metres, and a leg holds at most 65535: check the coordinates and their unit, or end the \
             line with legs with \"distance in 10 m\""
        );
        assert_eq!(
            refused(200, 10, 655_351),
            "65536 times 10 metres, and a leg holds at most 65535: check the coordinates and their unit, \
             or end the line with legs with \"distance in 100 m\""
        );
        assert_eq!(leg(1, 1, 24_000), Ok(Leg { minutes: 1_440, distance: 24_000 }));
        assert_eq!(
            refused(1, 1, 24_001),
            "1441 minutes, and a leg holds at most 1440: check the coordinates and their unit, and the speed"
        );
    }
}
