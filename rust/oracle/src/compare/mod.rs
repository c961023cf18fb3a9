//! Comparing a finder with the oracle: outcome and whole row, guard numbers included. A mismatch is shrunk and shown
//! with its seed.

mod lent;
mod report;
mod run;
mod shrink;
mod smaller;
mod tally;

pub use lent::{Finder, Lent, Said};
pub use report::side_by_side;
pub use run::{compare_seeds, differs, oracle};
pub use shrink::shrink;
pub use tally::Tally;
