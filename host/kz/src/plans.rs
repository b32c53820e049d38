//! The words of a plan by their kind.

/// The vehicles that leave in these words.
pub fn vehicles(plan: &[u32]) -> usize {
    plan.iter().filter(|&word| word >> 28 == 0xA).count()
}

/// The stops of a plan, served or left out, each with the place where its word stands.
pub fn stops(plan: &[u32]) -> impl Iterator<Item = (usize, usize)> + '_ {
    let named = plan.iter().enumerate().filter(|(_, &word)| matches!(word >> 28, 0xB | 0xF));
    named.map(|(place, word)| (place, (word & 0xFF) as usize))
}

/// A stop or a tip by its number.
#[derive(Clone, Copy, Debug, PartialEq, Eq)]
pub enum Place {
    /// A stop, served or left out.
    Stop(usize),
    /// A tip.
    Tip(usize),
}

/// The stop or tip that a word is about.
pub fn place_of(word: u32) -> Option<Place> {
    let number = (word & 0xFF) as usize;
    match word >> 28 {
        0xB | 0xF => Some(Place::Stop(number)),
        0xC => Some(Place::Tip(number)),
        _ => None,
    }
}
