//! Running a finder beside the oracle over the cases of many seeds.

use super::{Finder, Lent, Tally, shrink, side_by_side};
use crate::call::call;
use crate::cases::Case;
use crate::outcome::Outcome;
use crate::rules::DOCUMENT_01;
use std::ops::Range;

/// The oracle, by document 01's rules.
pub fn oracle(image: &[u8], sheet: &[u32], row: &mut [u32]) -> Outcome {
    call(image, sheet, row, &DOCUMENT_01)
}

/// Compares the cases that come of each seed; the error tells the first mismatch.
pub fn compare_seeds(seeds: Range<u64>, cases_of: fn(u64) -> Vec<Case>, finder: &Finder) -> Result<Tally, String> {
    let mut tally = Tally::default();
    for seed in seeds {
        for case in cases_of(seed) {
            let outcome = compare_case(&case, finder).map_err(|told| format!("mismatch at seed {seed}\n{told}"))?;
            tally.add(outcome);
        }
    }
    Ok(tally)
}

/// The outcome that both give, or both answers to the smallest case found on which they differ.
fn compare_case(case: &Case, finder: &Finder) -> Result<Outcome, String> {
    let lent = Lent::new(case);
    let expected = lent.ask(&oracle);
    if !expected.leaves_the_rest() {
        return Err("the oracle writes where it must not".into());
    }
    if lent.ask(finder) != expected {
        return Err(side_by_side(&Lent::new(&shrink(case, &|case| differs(case, finder))), finder));
    }
    Ok(expected.outcome)
}

/// Whether the comparison tells the finder from the oracle.
pub fn differs(case: &Case, finder: &Finder) -> bool {
    let lent = Lent::new(case);
    lent.ask(finder) != lent.ask(&oracle)
}
