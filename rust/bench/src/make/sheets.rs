//! Sheets of 64 queries from a seed. Sheets that differ only in k, in weights or between modes 0 and 1 ask for the same
//! terms.

use super::Collection;
use oracle::cases::Random;
use oracle::write::{QueryDraft, SheetDraft};

/// A budget that no query uses up.
pub const AMPLE: u32 = u32::MAX;
const QUERIES: u32 = 64;

/// The terms of a query.
#[derive(Clone, Copy)]
pub enum Terms {
    Each(u32),
    OneToSixteen,
}

/// The weights of a query.
#[derive(Clone, Copy)]
pub enum Weights {
    /// All 1.
    Uniform,
    /// By the logarithm of documents / postings: 255 for the rarest term of the collection.
    Rarity,
    /// Any of 1 to 255.
    Any,
}

/// A kind of sheet.
#[derive(Clone, Copy)]
pub struct Plan {
    pub mode: u32,
    pub terms: Terms,
    pub k: u32,
    pub weights: Weights,
}

impl Plan {
    /// The numbers of the sheet.
    pub fn sheet(&self, collection: &Collection) -> Vec<u32> {
        let mut random = Random::new(collection.seed);
        let queries = (0..QUERIES).map(|_| self.query(collection, &mut random));
        SheetDraft::new(queries.collect()).numbers()
    }

    fn query(&self, collection: &Collection, random: &mut Random) -> QueryDraft {
        let q = match self.terms {
            Terms::Each(q) => q,
            Terms::OneToSixteen => random.between(1, 16),
        };
        let terms = draw_terms(random, collection.lengths.len(), self.mode, q);
        let weight = |term: usize, random: &mut Random| match self.weights {
            Weights::Uniform => 1,
            Weights::Rarity => collection.rarity(term),
            Weights::Any => random.between(1, 255),
        };
        let mentions: Vec<(u32, u32)> = terms.iter().map(|&term| (term as u32, weight(term, random))).collect();
        QueryDraft::new(self.mode, self.k, AMPLE, &mentions)
    }
}

/// A sheet whose queries take turns in mode and stop early: modes 0 and 1 at an eighth of the mentions' postings, mode 2
/// at the ninth matching document.
pub fn tight(collection: &Collection) -> Vec<u32> {
    let mut random = Random::new(collection.seed);
    let queries = (0..QUERIES).map(|i| {
        let plan = Plan { mode: i % 3, terms: Terms::Each(1 + i % 16), k: 10, weights: Weights::Rarity };
        let mut query = plan.query(collection, &mut random);
        let postings: usize = query.mentions.iter().map(|&(term, _)| collection.lengths[term as usize]).sum();
        query.budget = if plan.mode == 2 { 8 * query.terms } else { postings as u32 / 8 };
        query
    });
    SheetDraft::new(queries.collect()).numbers()
}

/// Different terms. Each doubling of the rank is as likely as any other: long lists are asked for more often. In mode 2
/// they are of the first half of the doublings, or hardly a document would match.
fn draw_terms(random: &mut Random, terms: usize, mode: u32, q: u32) -> Vec<usize> {
    let all = terms.ilog2() as usize;
    let doublings = if mode == 2 { all.div_ceil(2).max(5) } else { all };
    let mut drawn = Vec::new();
    while drawn.len() < q as usize {
        let first = 1 << random.below(doublings);
        let term = first - 1 + random.below(first);
        if !drawn.contains(&term) {
            drawn.push(term);
        }
    }
    drawn
}
