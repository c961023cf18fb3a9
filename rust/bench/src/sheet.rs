//! Judging the sheet: refusals 9 to 14 in reading order. Both Rust evaluators take their queries from here.

use oracle::outcome::{Refusal, refuse};

/// A query of a judged sheet; its pairs are of term and weight.
pub struct Query<'a> {
    pub mode: u32,
    pub k: usize,
    pub budget: u64,
    pub pairs: &'a [[u32; 2]],
}

impl Query<'_> {
    /// The numbers that its answer fills.
    pub fn stretch(&self) -> usize {
        3 + 2 * self.k
    }
}

/// The queries of a sheet over so many terms, or the first fault found.
pub fn judge_sheet(sheet: &[u32], terms: usize) -> Result<Vec<Query<'_>>, Refusal> {
    let Some((&count @ 1..=64, mut rest)) = sheet.split_first() else {
        return refuse(9, 0);
    };
    let mut queries = Vec::with_capacity(count as usize);
    for place in 0..count as usize {
        match judge_query(&mut rest, terms) {
            Ok(query) => queries.push(query),
            Err(number) => return refuse(number, place),
        }
    }
    if rest.is_empty() { Ok(queries) } else { refuse(9, count as usize) }
}

/// Takes one query from the rest of the sheet; or gives the refusal's number.
fn judge_query<'a>(rest: &mut &'a [u32], terms: usize) -> Result<Query<'a>, u32> {
    let Some(&[mode, k, budget, q]) = rest.split_off(..4) else {
        return Err(9);
    };
    if mode > 2 {
        return Err(10);
    }
    if !(1..=64).contains(&k) {
        return Err(11);
    }
    if !(1..=16).contains(&q) {
        return Err(12);
    }
    let (pairs, _) = rest.split_off(..2 * q as usize).ok_or(9u32)?.as_chunks();
    for &[term, weight] in pairs {
        if term as usize >= terms {
            return Err(13);
        }
        if !(1..=255).contains(&weight) {
            return Err(14);
        }
    }
    Ok(Query { mode, k: k as usize, budget: u64::from(budget), pairs })
}
