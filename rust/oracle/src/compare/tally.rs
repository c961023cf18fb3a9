//! How many cases were compared, and how many of them had each outcome.

use crate::outcome::Outcome;
use std::fmt;

/// The count of cases done, then of those refused by number.
#[derive(Clone, Debug, Default, PartialEq, Eq)]
pub struct Tally {
    counts: [u64; 16],
}

impl Tally {
    pub fn add(&mut self, outcome: Outcome) {
        let number = outcome.map_or_else(|refusal| refusal.number as usize, |_| 0);
        self.counts[number] += 1;
    }

    pub fn merge(&mut self, other: &Tally) {
        for (count, more) in self.counts.iter_mut().zip(other.counts) {
            *count += more;
        }
    }

    /// All cases.
    pub fn cases(&self) -> u64 {
        self.counts.iter().sum()
    }

    /// The fewest cases that any outcome had.
    pub fn fewest(&self) -> u64 {
        self.counts.iter().copied().min().unwrap_or(0)
    }
}

impl fmt::Display for Tally {
    fn fmt(&self, f: &mut fmt::Formatter<'_>) -> fmt::Result {
        write!(f, "{} cases alike: {} done, refused", self.cases(), self.counts[0])?;
        for (number, count) in self.counts.iter().enumerate().skip(1) {
            write!(f, " {number}:{count}")?;
        }
        Ok(())
    }
}
