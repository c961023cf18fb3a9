//! Budgets exactly at and one to each side of every visited document's boundary.

use crate::tested::compare_and_show;
use oracle::cases::cases_at_boundaries;

/// Queries, each asked with all its budgets.
const QUERIES: u64 = 3_000;

#[test]
fn budgets_at_every_boundary() {
    compare_and_show("boundaries", 0, QUERIES, cases_at_boundaries);
}
