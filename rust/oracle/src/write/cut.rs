//! Cutting a list's postings into blocks of chosen sizes.

use super::{BlockDraft, ListDraft};
use crate::index::Posting;

/// Blocks of the sizes given in turn (each 1 to 128; the last may come out smaller), each with its smallest width.
pub fn cut(postings: &[Posting], mut size: impl FnMut() -> usize) -> ListDraft {
    let mut blocks = Vec::new();
    let mut rest = postings;
    let mut previous = -1;
    while !rest.is_empty() {
        let (block, after) = rest.split_at(size().min(rest.len()));
        blocks.push(BlockDraft { width: smallest_width(previous, block), postings: block.to_vec() });
        previous = i64::from(block[block.len() - 1].document);
        rest = after;
    }
    ListDraft { blocks }
}

/// The smallest width that holds the gaps of a block after the document `previous` (-1 at a list's start).
pub fn smallest_width(mut previous: i64, block: &[Posting]) -> u32 {
    let mut width = 0;
    for posting in block {
        let gap = i64::from(posting.document) - previous - 1;
        width = width.max(i64::BITS - gap.leading_zeros());
        previous = i64::from(posting.document);
    }
    width
}
