//! Where and when a vehicle is, and what the next thing that it does makes of that.

use super::fields::{number, Fields, Window};

#[derive(Clone, Copy)]
pub struct Trip {
    pub minute: u32,
    pub place: usize,
    pub rested: bool,
}

impl Fields<'_> {
    pub fn leaving(&self) -> Trip {
        Trip { minute: self.depot.opening, place: 0, rested: false }
    }

    pub fn stop_window(&self, stop: usize) -> Window {
        Window::of(self.stop_words[3 * (stop - 1)])
    }

    pub fn service(&self, stop: usize) -> u32 {
        number(self.stop_words[3 * (stop - 1) + 1])
    }

    pub fn quantity(&self, stop: usize) -> u32 {
        number(self.stop_words[3 * (stop - 1) + 2])
    }

    pub fn rest_if_due(&self, trip: Trip) -> Trip {
        if !trip.rested && self.rest.opening <= trip.minute && trip.minute <= self.rest.closing {
            Trip { minute: trip.minute + self.rest_minutes, rested: true, ..trip }
        } else {
            trip
        }
    }

    pub fn served(&self, trip: Trip, stop: usize) -> Trip {
        self.visited(trip, self.tips + stop, self.stop_window(stop), self.service(stop))
    }

    pub fn tipped(&self, trip: Trip, tip: usize) -> Trip {
        let words = &self.tip_words[2 * tip - 2..2 * tip];
        self.visited(trip, tip, Window::of(words[0]), number(words[1]))
    }

    /// A visit waits for the opening. It may be late, which the check finds.
    fn visited(&self, trip: Trip, place: usize, window: Window, service: u32) -> Trip {
        let arrival = trip.minute + self.leg(trip.place, place).0;
        Trip { minute: arrival.max(window.opening) + service, place, ..trip }
    }

    pub fn nearest_tip(&self, trip: Trip) -> Option<usize> {
        let (mut best, mut least) = (None, u32::MAX);
        for tip in 1..=self.tips {
            let minutes = self.leg(trip.place, tip).0;
            let (window, arrival) =
                (Window::of(self.tip_words[2 * tip - 2]), trip.minute + minutes);
            if minutes < least && window.opening <= arrival && arrival <= window.closing {
                (best, least) = (Some(tip), minutes);
            }
        }
        best
    }
}
