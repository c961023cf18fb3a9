//! Random sound sheets: all modes, k 1 to 64, q 1 to 16, repeated terms, weights that tie and weights that do not.

use super::Random;
use super::budgets::random_budget;
use crate::index::Index;
use crate::query::Query;
use crate::rules::DOCUMENT_01;
use crate::sheet::judge_sheet;
use crate::write::{ImageDraft, QueryDraft, SheetDraft};

/// How many queries to ask of an image; many only where it is small.
pub fn query_count(random: &mut Random, image: &ImageDraft) -> u32 {
    let small = image.documents <= 60;
    match random.below(100) {
        0 | 1 if small => random.between(63, 64),
        2..10 if small => random.between(5, 20),
        0..50 => random.between(2, 4),
        _ => 1,
    }
}

/// A sheet of so many queries over the image.
pub fn draft_sheet(random: &mut Random, image: &ImageDraft, queries: u32) -> SheetDraft {
    let index = image.index();
    let queries = (0..queries).map(|_| {
        let mut query = draft_query(random, index.lists.len());
        query.budget = random_budget(random, &index, &query);
        query
    });
    SheetDraft::new(queries.collect())
}

/// A query over so many terms, with budget enough for all its postings.
pub fn draft_query(random: &mut Random, terms: usize) -> QueryDraft {
    let k = match random.below(8) {
        0..3 => 1,
        3..5 => random.between(2, 3),
        5 => random.between(1, 10),
        6 => random.between(10, 64),
        _ => random.between(63, 64),
    };
    let q = match random.below(16) {
        0 => 16,
        1 => random.between(5, 15),
        _ => random.between(1, 4),
    };
    let most_weight = random.pick(&[1, 1, 3, 255]);
    let least_weight = if random.one_in(8) { most_weight } else { 1 };
    let mut mentions: Vec<(u32, u32)> = Vec::new();
    for _ in 0..q {
        let repeated = !mentions.is_empty() && random.one_in(5);
        let term = if repeated { random.pick(&mentions).0 } else { random.below(terms.max(1)) as u32 };
        mentions.push((term, random.between(least_weight, most_weight)));
    }
    QueryDraft::new(random.between(0, 2), k, u32::MAX, &mentions)
}

/// The record of a query, if it is sound and the index has its terms.
pub fn record(index: &Index, query: &QueryDraft) -> Option<Query> {
    let sheet = SheetDraft::new(vec![query.clone()]).numbers();
    judge_sheet(&sheet, index.lists.len(), &DOCUMENT_01.sheet).ok()?.pop()
}
