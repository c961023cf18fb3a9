//! The plain evaluator: what one would write first. Safe Rust, a bit reader, blocks decoded into a `Vec`, a binary
//! heap of rows.

mod all;
mod any;
mod bits;
mod block;
mod cursor;
mod judge;
mod rows;

use crate::sheet::judge_sheet;
use oracle::outcome::{Outcome, refuse};

/// Judges image and sheet, and fills the row.
pub fn answer(image: &[u8], sheet: &[u32], row: &mut [u32]) -> Outcome {
    let index = judge::judge_image(image)?;
    let queries = judge_sheet(sheet, index.lists.len())?;
    let needed = queries.iter().map(|query| query.stretch()).sum();
    if row.len() < needed {
        return refuse(15, needed);
    }
    let mut start = 0;
    for query in &queries {
        let end = start + query.stretch();
        let answer = match query.mode {
            0 => any::plain(&index, query),
            1 => any::pruned(&index, query),
            _ => all::all_terms(&index, query),
        };
        answer.fill(&mut row[start..end]);
        start = end;
    }
    Ok(needed)
}
