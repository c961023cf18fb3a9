//! Shrinking a case that fails: the first smaller case that still fails takes its place, until none does.

use super::smaller::smaller;
use crate::cases::Case;

/// Enough for small cases; large ones end before the very smallest.
const MOST_TRIES: usize = 6_000;

/// The smallest case found that still fails.
pub fn shrink(case: &Case, fails: &dyn Fn(&Case) -> bool) -> Case {
    let mut smallest = case.clone();
    let mut tries = 0;
    loop {
        let next = smaller(&smallest).take(MOST_TRIES - tries).find(|case| {
            tries += 1;
            fails(case)
        });
        match next {
            Some(case) => smallest = case,
            None => return smallest,
        }
    }
}
