//! "A list is a row of blocks." Each is judged in order, then the list's largest impact: the list's refusal 7.

use super::Image;
use super::block::{Block, judge_block};
use super::entry::Entry;
use super::header::Header;
use crate::index::List;
use crate::outcome::{Refusal, refuse};

/// The list that starts at bit `start`, and the bit after it.
pub fn judge_list(
    image: &Image,
    header: &Header,
    term: usize,
    entry: &Entry,
    start: usize,
) -> Result<(List, usize), Refusal> {
    let rules = image.rules;
    let place = (rules.term_place)(term);
    let mut blocks: Vec<Block> = Vec::new();
    let mut left = entry.postings;
    let mut at = start;
    while left > 0 {
        let block = match judge_block(image, header, at, left, &blocks) {
            Ok(block) => block,
            Err(number) => return refuse(number, place),
        };
        left = left.saturating_sub(block.postings.len());
        at = (rules.next_block_bit)(block.end);
        blocks.push(block);
    }
    let largest = blocks.iter().map(|block| block.largest).max().unwrap_or(0);
    if !(rules.list_largest_is_true)(entry.largest, largest) {
        return refuse(7, place);
    }
    let largest = (rules.largest_of_list)(entry.largest, &blocks);
    let postings = blocks.into_iter().flat_map(|block| block.postings).collect();
    Ok((List { largest, postings }, at))
}
