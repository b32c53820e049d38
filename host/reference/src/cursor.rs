//! A cursor over the words of a day file. It goes forward only and refuses the first word that is
//! not what is asked for.

use std::ops::RangeInclusive;

use crate::day::{Leg, Stop, Tip, Window};
use crate::word::{Form, LEG, MINUTES, QUANTITY, SIZE, WINDOW};
use crate::Refusal;

pub(crate) struct Cursor<'a> {
    given: u64,
    rest: &'a [u32],
}

impl<'a> Cursor<'a> {
    /// At the first word, where there are enough of them to begin with.
    pub fn over(words: &'a [u32]) -> Result<Self, Refusal> {
        let given = words.len() as u64;
        if given < 7 {
            return Err(Refusal { number: 1, place: given });
        }
        Ok(Cursor { given, rest: words })
    }

    /// A refusal whose place is the word that was taken last.
    fn refuse(&self, number: u64) -> Refusal {
        Refusal { number, place: self.given - self.rest.len() as u64 - 1 }
    }

    fn take<const N: usize>(&mut self, form: Form<N>) -> Result<[u32; N], Refusal> {
        let (&word, rest) = self.rest.split_first().expect("the words were counted");
        self.rest = rest;
        form.read(word).ok_or_else(|| self.refuse(2))
    }

    /// Word 0: how many tips and stops there are. Then the words are counted.
    pub fn size(&mut self) -> Result<(usize, usize), Refusal> {
        let [tips, stops] = self.take(SIZE)?.map(|value| value as usize);
        if !(1..=15).contains(&tips) || stops > 240 {
            return Err(self.refuse(3));
        }
        let places = 1 + tips + stops;
        if self.given != (7 + 2 * tips + 3 * stops + places * places) as u64 {
            return Err(Refusal { number: 4, place: self.given });
        }
        Ok((tips, stops))
    }

    pub fn number(&mut self, form: Form<1>, range: RangeInclusive<u32>) -> Result<u32, Refusal> {
        let [number] = self.take(form)?;
        if !range.contains(&number) {
            return Err(self.refuse(5));
        }
        Ok(number)
    }

    pub fn window(&mut self, form: Form<2>) -> Result<Window, Refusal> {
        let [opening, closing] = self.take(form)?;
        if opening > closing || closing > 1_440 {
            return Err(self.refuse(5));
        }
        Ok(Window { opening, closing })
    }

    pub fn tip(&mut self) -> Result<Tip, Refusal> {
        Ok(Tip { window: self.window(WINDOW)?, service: self.number(MINUTES, 0..=240)? })
    }

    pub fn stop(&mut self) -> Result<Stop, Refusal> {
        Ok(Stop {
            window: self.window(WINDOW)?,
            service: self.number(MINUTES, 0..=240)?,
            quantity: self.number(QUANTITY, 0..=100_000)?,
        })
    }

    /// The legs from one place to each of `places` places.
    pub fn row(&mut self, from: usize, places: usize) -> Result<Vec<Leg>, Refusal> {
        (0..places).map(|to| self.leg(from == to)).collect()
    }

    /// "From a place to itself both are 0."
    fn leg(&mut self, to_itself: bool) -> Result<Leg, Refusal> {
        let [minutes, distance] = self.take(LEG)?;
        let leg = Leg { minutes, distance };
        if minutes > 1_440 || (to_itself && leg != Leg::NONE) {
            return Err(self.refuse(5));
        }
        Ok(leg)
    }
}
