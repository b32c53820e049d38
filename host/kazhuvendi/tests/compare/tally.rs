//! How often each answer was met.

use std::collections::BTreeMap;
use std::fmt;

use kazhuvendi::Refusal;

#[derive(Default)]
pub struct Tally {
    pub met: BTreeMap<&'static str, u64>,
    pub refused: [u64; 19],
}

impl Tally {
    /// Counts an answer under the name that it goes by, or its refusal.
    pub fn add(&mut self, answer: Result<&'static str, Refusal>) {
        match answer {
            Ok(name) => self.note(name),
            Err(refusal) => self.refused[refusal.number as usize] += 1,
        }
    }

    pub fn note(&mut self, name: &'static str) {
        *self.met.entry(name).or_default() += 1;
    }
}

impl fmt::Display for Tally {
    fn fmt(&self, f: &mut fmt::Formatter<'_>) -> fmt::Result {
        let met = self.met.iter().map(|(name, times)| format!("{times} {name}"));
        let refused = self.refused.iter().enumerate().filter(|(_, &times)| times > 0);
        let refused = refused.map(|(number, times)| format!("refusal {number} {times} times"));
        write!(f, "{}", met.chain(refused).collect::<Vec<_>>().join(", "))
    }
}
