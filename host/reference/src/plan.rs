//! A plan as a structure, read by its form: "vehicles, each A .. E with at least one B, then F
//! words rising".

use std::ops::Range;

use crate::day::Day;
use crate::word::{Form, PLAN_BACK, PLAN_LEFT_OUT, PLAN_REST, PLAN_STOP, PLAN_TIP, PLAN_VEHICLE};

/// A word of a plan. Stops and tips are counted from 1.
#[derive(Clone, Copy, Debug, PartialEq, Eq)]
pub enum Word {
    /// A: a vehicle leaves the depot.
    Vehicle(u32),
    /// B: it serves a stop.
    Stop(u32),
    /// C: it empties its load at a tip.
    Tip(u32),
    /// D: it rests where it is.
    Rest,
    /// E: it is back at the depot.
    Back,
    /// F: a stop that no vehicle serves.
    LeftOut(u32),
}

impl Word {
    /// Nothing where the kind is none of a plan's, or a bit that has no name is not zero.
    pub fn read(word: u32) -> Option<Word> {
        let numbered = |form: Form<1>| form.read(word).map(|[number]| number);
        numbered(PLAN_VEHICLE)
            .map(Word::Vehicle)
            .or_else(|| numbered(PLAN_STOP).map(Word::Stop))
            .or_else(|| numbered(PLAN_TIP).map(Word::Tip))
            .or_else(|| PLAN_REST.read(word).map(|[]| Word::Rest))
            .or_else(|| PLAN_BACK.read(word).map(|[]| Word::Back))
            .or_else(|| numbered(PLAN_LEFT_OUT).map(Word::LeftOut))
    }

    /// The word of 32 bits.
    pub fn word(self) -> u32 {
        match self {
            Word::Vehicle(count) => PLAN_VEHICLE.word([count]),
            Word::Stop(stop) => PLAN_STOP.word([stop]),
            Word::Tip(tip) => PLAN_TIP.word([tip]),
            Word::Rest => PLAN_REST.word([]),
            Word::Back => PLAN_BACK.word([]),
            Word::LeftOut(stop) => PLAN_LEFT_OUT.word([stop]),
        }
    }
}

/// A plan, as far as it has the form of one.
#[derive(Clone, Debug, Default, PartialEq, Eq)]
pub struct Plan {
    /// The words before the form breaks.
    pub words: Vec<Word>,
    /// Where each vehicle stands among them, from its A. The last one may be cut.
    pub vehicles: Vec<Range<usize>>,
    /// The form breaks behind these words: at the next one, or by ending inside a vehicle.
    pub broken: bool,
}

/// The plan that these words are. Numbers are held to the stops and tips of the day.
pub fn read(day: &Day, words: &[u32]) -> Plan {
    let stops = day.stops.len() as u32;
    let tips = day.tips.len() as u32;
    let mut reader = Reader { stops, tips, given: words, plan: Plan::default() };
    reader.plan.broken = !reader.whole_plan();
    reader.plan
}

struct Reader<'a> {
    stops: u32,
    tips: u32,
    given: &'a [u32],
    plan: Plan,
}

impl Reader<'_> {
    /// Takes the next word if it is one that may stand here.
    fn next_if(&mut self, may_stand: impl Fn(Word) -> bool) -> Option<Word> {
        let given = *self.given.get(self.plan.words.len())?;
        let word = Word::read(given).filter(|word| may_stand(*word))?;
        self.plan.words.push(word);
        Some(word)
    }

    /// True where the words end as a plan may end.
    fn whole_plan(&mut self) -> bool {
        for count in 1.. {
            if self.next_if(|word| word == Word::Vehicle(count)).is_none() {
                break;
            }
            if !self.vehicle() {
                return false;
            }
        }
        self.left_out();
        self.plan.words.len() == self.given.len()
    }

    /// What follows an A. True where an E ends it that has a B before it.
    fn vehicle(&mut self) -> bool {
        let (stops, tips) = (self.stops, self.tips);
        let start = self.plan.words.len() - 1;
        let mut serves = false;
        while let Some(word) = self.next_if(|word| match word {
            Word::Stop(stop) => (1..=stops).contains(&stop),
            Word::Tip(tip) => (1..=tips).contains(&tip),
            word => word == Word::Rest,
        }) {
            serves |= matches!(word, Word::Stop(_));
        }
        let whole = serves && self.next_if(|word| word == Word::Back).is_some();
        self.plan.vehicles.push(start..self.plan.words.len());
        whole
    }

    fn left_out(&mut self) {
        let stops = self.stops;
        let mut last = 0;
        while let Some(Word::LeftOut(stop)) = self.next_if(
            |word| matches!(word, Word::LeftOut(stop) if (last + 1..=stops).contains(&stop)),
        ) {
            last = stop;
        }
    }
}
