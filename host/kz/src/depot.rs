//! A sample depot's day: sixty stops along the streets of a small town, three tips and a lunch.
//! It is made up by a generator with a fixed seed, so that it is the same on every machine.

use std::ops::RangeInclusive;

use crate::clock::window;
use crate::day::Window;
use crate::draws::Draws;
use crate::text::{parse, NamedDay};

/// The sample day.
pub fn sample() -> NamedDay {
    parse(&sample_text()).expect("the sample day is written as a text has to be")
}

/// The sample day in text, with its legs by coordinates.
pub fn sample_text() -> String {
    let mut draws = Draws::new(SEED);
    let mut text = HEAD.to_string();
    for street in &STREETS {
        text.push_str(&format!("\n# {}: {}\n", street.name, street.trade.remark()));
        for house in 0..street.stops {
            text.push_str(&stop(street, house, &mut draws));
        }
    }
    text.push_str(LEGS);
    text
}

const SEED: u64 = 8;

const HEAD: &str = "\
# A day of commercial waste rounds in a small town. Coordinates are km east and
# north of the corner of its map.
day \"Millbrook depot, Tuesday 12 May\"

load         2300 kg         # Q: what a vehicle can have on board
load-a-day   4500 kg         # Q*: what it may collect in the whole day
stops-a-day    14            # S*: how many stops it may serve

depot 06:00-15:30                                        at 1.100 0.900
rest  10:30-12:30  30 min    # lunch

tip  \"North transfer\"        06:00-15:00  12 min           at 4.200 7.600
tip  \"Riverside incinerator\" 07:00-14:30  15 min           at 8.300 1.500
tip  \"Quarry landfill\"       08:00-15:00  10 min           at 0.300 5.200
";

const LEGS: &str = "
# Streets are 1.3 times as long as the crow flies, and trucks make 22 km/h.
# Distances are in metres.
legs by coordinates km 22 km/h detour 1.30
";

/// A kind of customer: when it can be served, and what there is to collect.
#[derive(Clone, Copy)]
enum Trade {
    Shops,
    Kitchens,
    Works,
    Public,
}
use Trade::{Kitchens, Public, Shops, Works};

impl Trade {
    fn remark(self) -> &'static str {
        match self {
            Shops => "shops, served before the street fills",
            Kitchens => "restaurants and hotels, done before noon",
            Works => "works and warehouses, open all day",
            Public => "schools and offices, open from the morning to the afternoon",
        }
    }

    fn names(self) -> &'static [&'static str] {
        match self {
            Shops => &[
                "Baker", "Grocer", "Chemist", "Florist", "Bookshop", "Butcher", "Optician", "Bank",
            ],
            Kitchens => {
                &["Hotel", "Trattoria", "Bistro", "Tea room", "Grill", "Fish bar", "Canteen"]
            }
            Works => &["Joinery", "Store", "Printer", "Foundry", "Garage", "Dairy", "Sawmill"],
            Public => &["College", "Clinic", "Library", "Town hall", "School", "Museum"],
        }
    }

    /// Openings and closings to choose from, in minutes from midnight.
    fn hours(self) -> (&'static [u32], &'static [u32]) {
        match self {
            Shops => (&[360, 360, 390], &[600, 630, 660]),
            Kitchens => (&[420, 450, 480, 510], &[660, 690, 720]),
            Works => (&[360, 390, 420], &[900, 930, 960]),
            Public => (&[450, 480], &[840, 870]),
        }
    }

    /// The minutes of a service, and the tens of kg that it collects.
    fn work(self) -> [RangeInclusive<u32>; 2] {
        match self {
            Shops => [6..=10, 4..=18],
            Kitchens => [8..=14, 10..=36],
            Works => [12..=24, 25..=95],
            Public => [9..=16, 12..=45],
        }
    }
}

/// A street from one end to the other, in metres, along which stops stand.
struct Street {
    name: &'static str,
    trade: Trade,
    stops: u32,
    from: (i64, i64),
    to: (i64, i64),
}

const STREETS: [Street; 9] = [
    street("Market", Shops, 8, (4_700, 3_900), (5_100, 4_300)),
    street("High St", Shops, 8, (5_200, 4_200), (6_400, 4_700)),
    street("Station", Shops, 6, (3_900, 4_600), (4_500, 5_700)),
    street("Mill Ln", Kitchens, 6, (5_600, 3_300), (6_500, 2_800)),
    street("Harbour", Kitchens, 7, (7_300, 2_600), (8_800, 3_400)),
    street("Forge Rd", Works, 7, (1_800, 6_000), (2_900, 7_100)),
    street("Canal", Works, 6, (2_200, 1_900), (3_900, 1_500)),
    street("North Pk", Works, 6, (6_600, 6_700), (7_900, 7_300)),
    street("Hill Rd", Public, 6, (6_900, 5_200), (7_700, 4_600)),
];

const fn street(
    name: &'static str,
    trade: Trade,
    stops: u32,
    from: (i64, i64),
    to: (i64, i64),
) -> Street {
    Street { name, trade, stops, from, to }
}

/// One stop's line. Stops stand at about equal distances along the street.
fn stop(street: &Street, house: u32, draws: &mut Draws) -> String {
    let names = street.trade.names();
    let name = names[house as usize % names.len()];
    let number = 2 * house + 1 + draws.within(&(0..=1));
    let (openings, closings) = street.trade.hours();
    let open = Window { opening: draws.one_of(openings), closing: draws.one_of(closings) };
    let [minutes, tens_of_kg] = street.trade.work().map(|range| draws.within(&range));
    let kg = 10 * tens_of_kg;
    let mut along = |from: i64, to: i64| {
        let middle = from + (to - from) * i64::from(2 * house + 1) / i64::from(2 * street.stops);
        let metres = middle + i64::from(draws.within(&(0..=120))) - 60;
        format!("{}.{:03}", metres / 1_000, metres % 1_000)
    };
    let x = along(street.from.0, street.to.0);
    let y = along(street.from.1, street.to.1);
    let quoted = format!("\"{name}, {} {number}\"", street.name);
    format!("stop {quoted:23} {}  {minutes:2} min  {kg:4} kg  at {x} {y}\n", window(open))
}
