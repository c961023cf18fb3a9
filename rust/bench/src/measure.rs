//! Times, the least of several, taken by all evaluators in turn. A call always judges the image; what its queries take
//! is the difference to a call whose only query stops at once.

use crate::evaluators::{COUNT, EVALUATORS, JUDGING, LONGEST_ROW, postings_scored};
use std::time::{Duration, Instant};

/// The rounds that a sheet is measured in: so many, and more while they take less than this.
const ROUNDS: usize = 5;
const MOST_ROUNDS: usize = 40;
const ENOUGH: Duration = Duration::from_secs(2);

/// The least time of each evaluator.
pub type Times = [Duration; COUNT];

pub struct Measured {
    /// Of whole calls, judging included.
    pub calls: Times,
    pub scored: u64,
}

pub struct Meter<'a> {
    image: &'a [u8],
    /// Of calls that judge the image and do nothing else; over all rounds so far.
    pub judging: Times,
}

impl<'a> Meter<'a> {
    pub fn new(image: &'a [u8]) -> Meter<'a> {
        Meter { image, judging: [Duration::MAX; COUNT] }
    }

    /// Measures a sheet's call and judging in turn. The error says that answers differ.
    pub fn measure(&mut self, sheet: &[u32]) -> Result<Measured, String> {
        let start = Instant::now();
        let mut rows = [const { Vec::new() }; COUNT];
        let mut calls = [Duration::MAX; COUNT];
        let mut round = 0;
        while round < ROUNDS || (round < MOST_ROUNDS && start.elapsed() < ENOUGH) {
            for i in 0..COUNT {
                self.judging[i] = self.judging[i].min(self.time(i, &JUDGING).0);
                let (time, row) = self.time(i, sheet);
                calls[i] = calls[i].min(time);
                rows[i] = row;
            }
            round += 1;
        }
        if let Some(i) = (1..COUNT).find(|&i| rows[i] != rows[0]) {
            return Err(format!("{} and {} answer differently", EVALUATORS[0].name, EVALUATORS[i].name));
        }
        Ok(Measured { calls, scored: postings_scored(sheet, &rows[0]) })
    }

    /// One call: its time, and the row it leaves.
    fn time(&self, evaluator: usize, sheet: &[u32]) -> (Duration, Vec<u32>) {
        let mut row = vec![u32::MAX; LONGEST_ROW];
        let start = Instant::now();
        let outcome = (EVALUATORS[evaluator].answer)(self.image, sheet, &mut row);
        let time = start.elapsed();
        assert!(outcome.is_ok(), "{} refuses: {outcome:?}", EVALUATORS[evaluator].name);
        (time, row)
    }
}
