//! Budgets 0 and 1, ample ones, and those exactly at and one to each side of every visited document's boundary.

use super::sheets::{draft_query, record};
use super::{Case, Random, draft_image_of};
use crate::index::Index;
use crate::rules::DOCUMENT_01;
use crate::search::{Question, boundaries};
use crate::write::{QueryDraft, SheetDraft};

/// A budget for the query: on an edge of some kind.
pub fn random_budget(random: &mut Random, index: &Index, query: &QueryDraft) -> u32 {
    match random.below(8) {
        0 => random.between(0, 1),
        1 => random.between(0, 40),
        2 => u32::MAX - random.between(0, 20),
        3 => random.any(),
        _ => {
            let boundaries = query_boundaries(index, query);
            if boundaries.is_empty() { 0 } else { random.pick(&boundaries) + random.between(0, 2) - 1 }
        }
    }
}

/// One query asked with every budget on an edge, on as many sheets as that takes.
pub fn cases_at_boundaries(seed: u64) -> Vec<Case> {
    let mut random = Random::new(seed);
    let (documents, terms) = (random.between(1, 60), random.between(1, 6));
    let image = draft_image_of(&mut random, documents, terms);
    let query = draft_query(&mut random, image.lists.len());
    let boundaries = query_boundaries(&image.index(), &query);
    let edges = boundaries.iter().flat_map(|&edge| [edge - 1, edge, edge + 1]);
    let mut budgets: Vec<u32> = edges.chain([0, 1, u32::MAX]).collect();
    budgets.sort_unstable();
    budgets.dedup();
    let sheet = |budgets: &[u32]| {
        SheetDraft::new(budgets.iter().map(|&budget| QueryDraft { budget, ..query.clone() }).collect())
    };
    let case = |sheet: SheetDraft| Case { image: image.clone(), damages: Vec::new(), sheet, spare: 0 };
    budgets.chunks(64).map(|budgets| case(sheet(budgets))).collect()
}

/// The boundaries of a query; none where a term is not in the index.
fn query_boundaries(index: &Index, query: &QueryDraft) -> Vec<u32> {
    let Some(query) = record(index, query) else {
        return Vec::new();
    };
    let question = Question::new(index, &query, &DOCUMENT_01.search);
    boundaries(&question).iter().map(|&edge| edge as u32).collect()
}
