//! Random ways to cut a list into blocks and to choose widths, not only the smallest.

use super::Random;
use crate::index::Posting;
use crate::write::{ListDraft, cut};

/// The widest gap that document 01 allows.
const WIDEST: u32 = 24;

/// The postings in blocks of some sizes and widths.
pub fn draft_list(random: &mut Random, postings: &[Posting]) -> ListDraft {
    let (least, most) = match random.below(6) {
        0 => (128, 128),
        1 => (1, 1),
        2 => (1, 4),
        3 => (1, 128),
        4 => (126, 128),
        _ => {
            let size = random.between(2, 20);
            (size, size)
        }
    };
    let mut list = cut(postings, || random.between(least, most) as usize);
    let widening = random.below(4);
    for block in &mut list.blocks {
        block.width = match widening {
            0 => random.between(block.width, WIDEST),
            1 => WIDEST,
            2 => (block.width + 1).min(WIDEST),
            _ => block.width,
        };
    }
    list
}
