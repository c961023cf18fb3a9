//! Judging a sheet "in reading order: a query's four numbers (9 if any is missing), 10, 11, 12, its pairs (9 if any
//! number is missing), then pair by pair 13 before 14. Numbers left over come after all queries."

use crate::outcome::{Refusal, refuse};
use crate::query::{Mention, Query};
use crate::rules::SheetRules;

/// The queries of a sheet over an index of so many terms, or the first fault found.
pub fn judge_sheet(sheet: &[u32], terms: usize, rules: &SheetRules) -> Result<Vec<Query>, Refusal> {
    let Some((&queries, mut rest)) = sheet.split_first() else {
        return refuse(9, 0);
    };
    if !(rules.queries_are_sound)(queries) {
        return refuse(9, 0);
    }
    let mut judged = Vec::new();
    for query in 0..queries as usize {
        match judge_query(&mut rest, terms, rules) {
            Ok(record) => judged.push(record),
            Err(number) => return refuse(number, (rules.query_place)(query)),
        }
    }
    if !(rules.rest_is_sound)(rest.len()) {
        return refuse(9, (rules.left_over_place)(queries as usize));
    }
    Ok(judged)
}

/// Takes one query from the rest of the sheet; or gives the refusal's number.
fn judge_query(rest: &mut &[u32], terms: usize, rules: &SheetRules) -> Result<Query, u32> {
    let Some(&[mode, k, budget, q]) = rest.split_off(..4) else {
        return Err(9);
    };
    let mode = (rules.mode)(mode).ok_or(10u32)?;
    if !(rules.k_is_sound)(k) {
        return Err(11);
    }
    if !(rules.q_is_sound)(q) {
        return Err(12);
    }
    let pairs = rest.split_off(..2 * q as usize).ok_or(9u32)?;
    let mut mentions = Vec::new();
    for pair in pairs.chunks_exact(2) {
        mentions.push(judge_pair(pair[0], pair[1], terms, rules)?);
    }
    Ok(Query { mode, k: k as usize, budget: u64::from(budget), mentions })
}

/// "13 before 14".
fn judge_pair(term: u32, weight: u32, terms: usize, rules: &SheetRules) -> Result<Mention, u32> {
    match ((rules.term)(term, terms), (rules.weight_is_sound)(weight)) {
        (Some(term), true) => Ok(Mention { term, weight: u64::from(weight) }),
        (Some(_), false) => Err(14),
        (None, true) => Err(13),
        (None, false) => Err(rules.first_of_pair),
    }
}
