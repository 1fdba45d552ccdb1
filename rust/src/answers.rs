//! How readers answered, counted.

use std::collections::BTreeMap;

/// How often a reader accepted, and how often it refused by which number.
#[derive(Default)]
pub struct Answers {
    pub reads: u64,
    pub accepted: u64,
    pub refused: BTreeMap<u32, u64>,
}

impl core::fmt::Display for Answers {
    fn fmt(&self, f: &mut core::fmt::Formatter<'_>) -> core::fmt::Result {
        write!(f, "{} reads, {} accepted", self.reads, self.accepted)?;
        self.refused.iter().try_for_each(|(number, times)| write!(f, ", {times} refused by {number}"))
    }
}

impl Answers {
    /// One more answer: accepted, or refused by a number.
    pub fn count(&mut self, refused: Option<u32>) {
        self.reads += 1;
        match refused {
            None => self.accepted += 1,
            Some(number) => *self.refused.entry(number).or_default() += 1,
        }
    }
}
