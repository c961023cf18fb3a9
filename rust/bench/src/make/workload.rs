//! What is measured and what is checked: one collection and all its sheets.

use super::sheets::{Plan, Terms, Weights, tight};
use super::{Collection, falling};

pub struct Sheet {
    pub name: String,
    /// None where the queries have different modes.
    pub mode: Option<u32>,
    pub numbers: Vec<u32>,
}

pub struct Workload {
    pub collection: Collection,
    pub sheets: Vec<Sheet>,
}

impl Workload {
    /// N = 1,000,000 and 3,000 terms, the longest list of 300,000 postings.
    pub fn full() -> Workload {
        Workload::new(Collection { documents: 1_000_000, lengths: falling(3_000, 300_000, 3.4), seed: 9 })
    }

    /// Of a size for the oracle.
    pub fn small() -> Workload {
        Workload::new(Collection { documents: 1_000, lengths: falling(64, 400, 3.4), seed: 9 })
    }

    fn new(collection: Collection) -> Workload {
        let mut sheets = Vec::new();
        for mode in [0, 1, 2] {
            for (q, terms) in
                [("2", Terms::Each(2)), ("4", Terms::Each(4)), ("8", Terms::Each(8)), ("1 to 16", Terms::OneToSixteen)]
            {
                for k in [10, 64] {
                    for (by, weights) in [("uniform", Weights::Uniform), ("rarity", Weights::Rarity)] {
                        let numbers = Plan { mode, terms, k, weights }.sheet(&collection);
                        let name = format!("mode {mode}, q {q}, k {k}, {by}");
                        sheets.push(Sheet { name, mode: Some(mode), numbers });
                    }
                }
            }
        }
        sheets.push(Sheet { name: "modes 0 to 2, tight budgets".into(), mode: None, numbers: tight(&collection) });
        Workload { collection, sheets }
    }
}
