//! A sample instance of the public Solomon text form: the containers of a small harbour town. It is
//! made up by a generator with a fixed seed, so that it is the same on every machine.

use crate::draws::Draws;

/// The instance: 48 customers on six quays around one depot, and windows that come quay by quay.
pub fn sample_text() -> String {
    let mut draws = Draws::new(SEED);
    let mut text = HEAD.to_string();
    text += &row([0, DEPOT.0, DEPOT.1, 0, OPENING, CLOSING, 0]);
    for (quay, stands) in (0..).zip(&QUAYS) {
        for stand in 1..=STANDS {
            text += &row(customer(quay * STANDS + stand, stands, &mut draws));
        }
    }
    text
}

const SEED: u64 = 12;

const HEAD: &str = "\
HARBOUR

VEHICLE
NUMBER     CAPACITY
  12          200

CUSTOMER
CUST NO.   XCOORD.   YCOORD.    DEMAND   READY TIME   DUE DATE   SERVICE TIME

";

/// Where the depot is, and from when to when it is open: 06:00 to 18:00.
const DEPOT: (u32, u32) = (42, 47);
const OPENING: u32 = 360;
const CLOSING: u32 = 1_080;

/// So many customers a quay has.
const STANDS: u32 = 8;

/// A quay: the middle of its containers, and when the first of them is ready.
struct Quay {
    middle: (u32, u32),
    ready: u32,
}

const QUAYS: [Quay; 6] = [
    Quay { middle: (18, 24), ready: 380 },
    Quay { middle: (44, 12), ready: 420 },
    Quay { middle: (76, 22), ready: 480 },
    Quay { middle: (84, 58), ready: 540 },
    Quay { middle: (60, 86), ready: 600 },
    Quay { middle: (20, 74), ready: 660 },
];

/// The numbers of a customer's line. Its containers stand within a few steps of the quay's middle.
fn customer(number: u32, quay: &Quay, draws: &mut Draws) -> [u32; 7] {
    let mut near = |middle: u32| middle + draws.within(&(0..=16)) - 8;
    let (x, y) = (near(quay.middle.0), near(quay.middle.1));
    let demand = 10 * draws.within(&(1..=5));
    let ready = quay.ready + 10 * draws.within(&(0..=18));
    let due = ready + draws.one_of(&[60, 90, 120, 180]);
    [number, x, y, demand, ready, due, SERVICE]
}

/// The minutes that emptying a container takes.
const SERVICE: u32 = 10;

/// A line of numbers, each below its column's name.
fn row(numbers: [u32; 7]) -> String {
    let [number, x, y, demand, ready, due, service] = numbers;
    format!("{number:5} {x:9} {y:9} {demand:10} {ready:11} {due:11} {service:12}\n")
}
