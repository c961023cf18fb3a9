//! "A document's score is the sum, over the query's mentions whose list holds it, of weight times impact". "In modes 0
//! and 1 a document matches if some list holds it, in mode 2 if every mention's list does."

use super::Ceilings;
use crate::index::Index;
use crate::query::{Mention, Mode, Query};
use crate::rules::SearchRules;

/// A query asked of an index.
pub struct Question<'a> {
    pub index: &'a Index,
    pub query: &'a Query,
    pub rules: &'a SearchRules,
    pub ceilings: Ceilings,
}

impl<'a> Question<'a> {
    pub fn new(index: &'a Index, query: &'a Query, rules: &'a SearchRules) -> Question<'a> {
        Question { index, query, rules, ceilings: Ceilings::new(index, query, rules) }
    }

    /// The number of mentions, q.
    pub fn q(&self) -> usize {
        self.query.mentions.len()
    }

    /// Weight times impact, if the mention's list holds the document.
    pub fn product(&self, mention: &Mention, document: u32) -> Option<u64> {
        let impact = self.index.lists[mention.term].impact(document)?;
        Some((self.rules.product)(mention.weight, u64::from(impact)))
    }

    /// How many mentions' lists hold the document.
    pub fn holding(&self, document: u32) -> usize {
        self.query.mentions.iter().filter(|mention| self.product(mention, document).is_some()).count()
    }

    pub fn matches(&self, document: u32) -> bool {
        let holding = self.holding(document);
        match self.query.mode {
            Mode::Plain | Mode::Pruned => (self.rules.some_match)(holding, self.q()),
            Mode::All => (self.rules.all_match)(holding, self.q()),
        }
    }

    pub fn score(&self, document: u32) -> u64 {
        self.query.mentions.iter().filter_map(|mention| self.product(mention, document)).sum()
    }
}
