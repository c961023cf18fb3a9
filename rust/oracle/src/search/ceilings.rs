//! "Mode 1 orders the mentions by ceiling (weight times the list's largest impact), lowest first, ties by place in the
//! query". "Let P(i) be the sum of the i lowest ceilings, and j the largest i with P(i) at most the bar, P(0) being 0."

use crate::index::Index;
use crate::query::{Mention, Query};
use crate::rules::SearchRules;
use std::cmp::Ordering;

/// The mentions in order of their ceilings: rank 1 has the lowest.
pub struct Ceilings {
    ranks: Vec<Mention>,
    sums: Vec<u64>,
}

impl Ceilings {
    pub fn new(index: &Index, query: &Query, rules: &SearchRules) -> Ceilings {
        let ceiling = |mention: &Mention| (rules.product)(mention.weight, u64::from(index.lists[mention.term].largest));
        let mut order: Vec<(u64, usize)> =
            query.mentions.iter().enumerate().map(|(place, mention)| (ceiling(mention), place)).collect();
        order.sort_by(|&one, &other| match (rules.comes_before)(one, other) {
            true => Ordering::Less,
            false => Ordering::Greater,
        });
        let sums = (0..=order.len()).map(|i| order[..i].iter().map(|&(ceiling, _)| ceiling).sum()).collect();
        Ceilings { ranks: order.iter().map(|&(_, place)| query.mentions[place]).collect(), sums }
    }

    /// P(i).
    pub fn sum(&self, i: usize) -> u64 {
        self.sums[i]
    }

    /// The mention at rank i, from 1.
    pub fn rank(&self, i: usize) -> &Mention {
        &self.ranks[i - 1]
    }

    /// The mentions above rank j.
    pub fn above(&self, j: usize) -> &[Mention] {
        &self.ranks[j..]
    }

    /// j at this bar.
    pub fn set_aside(&self, bar: u64, rules: &SearchRules) -> usize {
        (1..self.sums.len()).rev().find(|&i| (rules.sets_aside)(self.sum(i), bar)).unwrap_or(0)
    }
}
