//! The tuned evaluator: the same document-at-a-time work as fast as portable Rust was brought to do it. Words of eight
//! bytes, several postings to a load, blocks passed by their heads, no branch on which list is next, unchecked reads.

mod all;
mod any;
mod bits;
mod fields;
mod judge;
mod list;
mod merge;
mod strides;
mod survey;
mod table;
mod unpack;

use crate::sheet::judge_sheet;
use judge::Judged;
use merge::Merge;
use oracle::outcome::{Outcome, refuse};

/// Judges image and sheet, and fills the row.
pub fn answer(image: &[u8], sheet: &[u32], row: &mut [u32]) -> Outcome {
    let judged = Judged::new(image)?;
    let queries = judge_sheet(sheet, judged.header().terms)?;
    let needed = queries.iter().map(|query| query.stretch()).sum();
    if row.len() < needed {
        return refuse(15, needed);
    }
    let mut merge = Merge::new();
    let mut start = 0;
    for query in &queries {
        let end = start + query.stretch();
        let stretch = &mut row[start..end];
        match (query.mode, query.pairs.len()) {
            (2, 2..) => all::all_terms(judged, query, stretch),
            _ => any::any_term(judged, query, &mut merge, stretch),
        }
        start = end;
    }
    Ok(needed)
}
