//! The fields of an accepted day, read from its words where they are needed.

#[derive(Clone, Copy)]
pub struct Window {
    pub opening: u32,
    pub closing: u32,
}

impl Window {
    pub fn of(word: u32) -> Window {
        Window { opening: word >> 12 & 0xFFF, closing: word & 0xFFF }
    }
}

/// An accepted day file, with what a walk may ask for at every step at hand.
pub struct Fields<'a> {
    pub tips: usize,
    pub stops: usize,
    pub load: u32,
    pub day_load: u32,
    pub day_stops: u32,
    pub depot: Window,
    pub rest: Window,
    pub rest_minutes: u32,
    pub tip_words: &'a [u32],
    pub stop_words: &'a [u32],
    pub legs: &'a [u32],
}

impl<'a> Fields<'a> {
    pub fn new(day: &'a [u32]) -> Self {
        let tips = (day[0] >> 8 & 15) as usize;
        let stops = (day[0] & 255) as usize;
        let (tip_words, behind) = day[7..].split_at(2 * tips);
        let (stop_words, legs) = behind.split_at(3 * stops);
        Fields {
            tips,
            stops,
            load: number(day[1]),
            day_load: number(day[2]),
            day_stops: number(day[3]),
            depot: Window::of(day[4]),
            rest: Window::of(day[5]),
            rest_minutes: number(day[6]),
            tip_words,
            stop_words,
            legs,
        }
    }

    /// Minutes and distance.
    pub fn leg(&self, from: usize, to: usize) -> (u32, u32) {
        let word = self.legs[from * (1 + self.tips + self.stops) + to];
        (word >> 16 & 0xFFF, word & 0xFFFF)
    }
}

pub fn number(word: u32) -> u32 {
    word & 0x07FF_FFFF
}
