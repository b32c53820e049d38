//! A buffer to lend to the library, with canaries on both sides.

use std::fmt::Debug;
use std::ops::Range;

use crate::random::Random;

const CANARIES: usize = 16;

/// Items that can be lent, and what stands around them.
pub struct Lent<T> {
    store: Vec<T>,
    lent: Range<usize>,
}

impl<T: Copy + Debug + PartialEq + From<u8>> Lent<T> {
    /// These items behind `more` canaries more than usual, so that they may stand in any place.
    pub fn new(items: &[T], more: usize) -> Self {
        let start = CANARIES + more;
        let lent = start..start + items.len();
        let mut store = canaries(0..start);
        store.extend_from_slice(items);
        store.extend(canaries::<T>(lent.end..lent.end + CANARIES));
        Lent { store, lent }
    }

    /// The items.
    pub fn items(&self) -> &[T] {
        &self.store[self.lent.clone()]
    }

    /// The items, to be written.
    pub fn items_mut(&mut self) -> &mut [T] {
        &mut self.store[self.lent.clone()]
    }

    /// The buffer holds these items, and each canary is as it was.
    ///
    /// # Panics
    ///
    /// Where that is not so.
    pub fn assert_holds(&self, items: &[T]) {
        assert!(self.items() == items, "a lent buffer was changed where it should not be");
        self.assert_canaries();
    }

    /// Each canary is as it was. The buffer may hold anything.
    ///
    /// # Panics
    ///
    /// Where that is not so.
    pub fn assert_canaries(&self) {
        let (start, end) = (self.lent.start, self.lent.end);
        assert_eq!(self.store[..start], canaries::<T>(0..start), "before a lent buffer");
        assert_eq!(self.store[end..], canaries::<T>(end..end + CANARIES), "behind a lent buffer");
    }
}

/// The length of a buffer of which so many items are needed: often just enough, else too little or
/// more.
pub fn random_room(random: &mut Random, needed: usize) -> usize {
    match random.below(8) {
        0 => needed.saturating_sub(1),
        1 => random.below(needed + 1),
        2 => needed + 1,
        3 => needed + random.below(600),
        _ => needed,
    }
}

/// A canary differs from those beside it, so that none can stand in for another.
fn canaries<T: From<u8>>(places: Range<usize>) -> Vec<T> {
    places.map(|place| T::from(0xA5 ^ place as u8)).collect()
}
