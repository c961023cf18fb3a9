//! Smaller sheets: fewer queries, fewer mentions, lower numbers.

use super::{lower, with, without_one};
use crate::write::{QueryDraft, SheetDraft};

pub fn smaller_sheets(sheet: &SheetDraft) -> impl Iterator<Item = SheetDraft> {
    let half = sheet.queries.len() / 2;
    let halves = [sheet.queries[..half].to_vec(), sheet.queries[half..].to_vec()];
    let fewer = halves.into_iter().chain(without_one(&sheet.queries));
    let fewer = fewer.filter(|queries| queries.len() < sheet.queries.len()).map(|queries| {
        let dropped = (sheet.queries.len() - queries.len()) as u32;
        SheetDraft { says: sheet.says.saturating_sub(dropped), queries, ..sheet.clone() }
    });
    let lacking = lower(sheet.lacking as u32, 0).map(|lacking| with(sheet, |sheet| sheet.lacking = lacking as usize));
    let left_over = without_one(&sheet.left_over).map(|left_over| with(sheet, |sheet| sheet.left_over = left_over));
    let each = (0..sheet.queries.len()).flat_map(move |i| {
        smaller_queries(&sheet.queries[i]).map(move |query| with(sheet, |sheet| sheet.queries[i] = query))
    });
    fewer.chain(lacking).chain(left_over).chain(each)
}

fn smaller_queries(query: &QueryDraft) -> impl Iterator<Item = QueryDraft> {
    let fewer = without_one(&query.mentions).map(|mentions| {
        let terms = query.terms.saturating_sub(1);
        QueryDraft { terms, mentions, ..query.clone() }
    });
    let k = lower(query.k, 1).map(|k| with(query, |query| query.k = k));
    let budget = lower(query.budget, 0).map(|budget| with(query, |query| query.budget = budget));
    let mode = lower(query.mode, 0).map(|mode| with(query, |query| query.mode = mode));
    let weights = (0..query.mentions.len()).flat_map(move |i| {
        let lower = lower(query.mentions[i].1, 1);
        lower.map(move |weight| with(query, |query| query.mentions[i].1 = weight))
    });
    fewer.chain(k).chain(budget).chain(mode).chain(weights)
}
