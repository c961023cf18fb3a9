//! What "Scores, costs and the place" compares and counts.

use crate::search::{Question, Row, Visit, all_terms_cost, plain_cost, pruned_cost};

/// A mode's cost of a document at a bar: none where the mode does not visit it.
pub type CostRule = fn(question: &Question, bar: u64, document: u32) -> Option<u64>;

/// Each comparison or count with document 01's words beside it.
#[derive(Clone, Copy)]
pub struct SearchRules {
    /// "weight times impact"; also "weight times the list's largest impact".
    pub product: fn(weight: u64, impact: u64) -> u64,
    /// "In modes 0 and 1 a document matches if some list holds it".
    pub some_match: fn(holding: usize, q: usize) -> bool,
    /// "in mode 2 if every mention's list does".
    pub all_match: fn(holding: usize, q: usize) -> bool,
    /// "Rank: higher score, then lower document number."
    pub outranks: fn(one: Row, other: Row) -> bool,
    /// "the k-th best score among matching documents below d, or 0 where there are fewer than k".
    pub bar: fn(ranked: &[Row], k: usize) -> u64,
    /// "Mode 0 visits every matching document; its cost is the number of mentions whose list holds it."
    pub plain_cost: CostRule,
    /// Mode 1.
    pub pruned_cost: CostRule,
    /// "Mode 2 visits every matching document at cost q."
    pub all_terms_cost: CostRule,
    /// "by ceiling ... lowest first, ties by place in the query".
    pub comes_before: fn(one: (u64, usize), other: (u64, usize)) -> bool,
    /// "j the largest i with P(i) at most the bar".
    pub sets_aside: fn(sum: u64, bar: u64) -> bool,
    /// "if the sum so far plus P(i) is at most the bar, the document is dropped".
    pub drops: fn(sum: u64, bar: u64) -> bool,
    /// The i of that P(i), seen from the rank i.
    pub rank_of_bound: fn(rank: usize) -> usize,
    /// The cost of looking a mention up: "scored if it holds the document".
    pub lookup_cost: fn(holds: bool) -> u64,
    /// "the costs of all visited documents below d, plus q, exceed the budget".
    pub stops: fn(visit: &Visit, q: u64, budget: u64) -> bool,
    /// "the place is d".
    pub stop_place: fn(document: u32) -> u32,
    /// "If there is none, the place is N."
    pub finish_place: fn(documents: u32) -> u32,
    /// "Postings scored is the sum of costs of visited documents below the place."
    pub counts: fn(visit: &Visit, place: u32) -> bool,
}

pub const DOCUMENT_01: SearchRules = SearchRules {
    product: |weight, impact| weight * impact,
    some_match: |holding, _q| holding > 0,
    all_match: |holding, q| holding == q,
    outranks: |one, other| one.score > other.score || one.score == other.score && one.document < other.document,
    bar: |ranked, k| if ranked.len() < k { 0 } else { ranked[k - 1].score },
    plain_cost,
    pruned_cost,
    all_terms_cost,
    comes_before: |one, other| one.0 < other.0 || one.0 == other.0 && one.1 < other.1,
    sets_aside: |sum, bar| sum <= bar,
    drops: |sum, bar| sum <= bar,
    rank_of_bound: |rank| rank,
    lookup_cost: |holds| u64::from(holds),
    stops: |visit, q, budget| visit.spent + q > budget,
    stop_place: |document| document,
    finish_place: |documents| documents,
    counts: |visit, place| visit.document < place,
};
