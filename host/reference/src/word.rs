//! Words taken apart and put together, by the bit numbers that document 01 gives.

/// A field, by its highest and its lowest bit.
type Field = (u32, u32);

/// One kind of word: the number of the kind, in bits 31-28, and the fields that have a name.
#[derive(Clone, Copy, Debug)]
pub struct Form<const N: usize> {
    kind: u32,
    fields: [Field; N],
}

const fn form<const N: usize>(kind: u32, fields: [Field; N]) -> Form<N> {
    Form { kind, fields }
}

/// "A lone number is in bits 26-0."
const fn lone(kind: u32) -> Form<1> {
    form(kind, [(26, 0)])
}

/// "The number is in bits 7-0": a word of a plan.
const fn numbered(kind: u32) -> Form<1> {
    form(kind, [(7, 0)])
}

/// Word 0: the tips d, then the stops n.
pub const SIZE: Form<2> = form(1, [(11, 8), (7, 0)]);
/// Q, the load in kg.
pub const LOAD: Form<1> = lone(2);
/// Q*, the kg a day.
pub const DAY_LOAD: Form<1> = lone(3);
/// S*, the stops a day.
pub const DAY_STOPS: Form<1> = lone(4);
/// A window: its opening, then its closing.
pub const WINDOW: Form<2> = form(5, [(23, 12), (11, 0)]);
/// The rest window R1, R2.
pub const REST: Form<2> = form(6, [(23, 12), (11, 0)]);
/// Minutes: of the rest, or of service.
pub const MINUTES: Form<1> = lone(7);
/// The quantity q of a stop in kg.
pub const QUANTITY: Form<1> = lone(8);
/// A leg: its minutes, then its distance.
pub const LEG: Form<2> = form(9, [(27, 16), (15, 0)]);

/// A in a plan: a vehicle, by its count.
pub const PLAN_VEHICLE: Form<1> = numbered(0xA);
/// B in a plan: a stop.
pub const PLAN_STOP: Form<1> = numbered(0xB);
/// C in a plan: a tip.
pub const PLAN_TIP: Form<1> = numbered(0xC);
/// D in a plan: a rest, whose number is 0.
pub const PLAN_REST: Form<0> = form(0xD, []);
/// E in a plan: back at the depot, whose number is 0.
pub const PLAN_BACK: Form<0> = form(0xE, []);
/// F in a plan: a stop left out.
pub const PLAN_LEFT_OUT: Form<1> = numbered(0xF);

impl<const N: usize> Form<N> {
    /// The values of a word, or nothing where its kind is another one or an unnamed bit is not
    /// zero: the word that has these values and no more is then a different word.
    pub fn read(&self, word: u32) -> Option<[u32; N]> {
        let values = self.fields.map(|(high, low)| word >> low & (u32::MAX >> (31 - (high - low))));
        (self.word(values) == word).then_some(values)
    }

    /// The word that has these values.
    ///
    /// # Panics
    ///
    /// Where a value has more bits than its field.
    pub fn word(&self, values: [u32; N]) -> u32 {
        let mut word = self.kind << 28;
        for ((high, low), value) in self.fields.into_iter().zip(values) {
            assert!(value >> (high - low) <= 1, "{value} has more bits than {high}-{low}");
            word |= value << low;
        }
        word
    }
}
