//! "A block is: postings less one (7 bits), gap width w (5 bits, 0 to 24), largest impact of the block (8), document
//! number of its last posting (24); then per posting a gap of w bits and an impact of 8 bits". Refusals 5, 6 and 7.

use super::Image;
use super::header::Header;
use crate::index::Posting;

/// A block that was judged, and the bit after it.
pub struct Block {
    pub postings: Vec<Posting>,
    pub largest: u32,
    pub end: usize,
}

struct Head {
    postings: usize,
    width: u32,
    largest: u32,
    last: u32,
}

/// The bits of a block before its postings.
const HEAD: usize = 44;

/// The block at bit `at` of a list with `left` postings not yet read and the blocks `before`; or the refusal's number.
pub fn judge_block(image: &Image, header: &Header, at: usize, left: usize, before: &[Block]) -> Result<Block, u32> {
    let rules = image.rules;
    let head = judge_head(image, at, left, before)?;
    let previous = before.last().and_then(|block| block.postings.last());
    let previous = previous.map_or(-1, |posting| (rules.previous_of_block)(i64::from(posting.document)));
    let postings = judge_postings(image, header, at + HEAD, &head, previous)?;
    let last = postings.last().map_or(0, |posting| posting.document);
    let largest = postings.iter().map(|posting| posting.impact).max().unwrap_or(0);
    if !(rules.last_is_true)(head.last, last) || !(rules.block_largest_is_true)(head.largest, largest) {
        return Err(7);
    }
    Ok(Block { postings, largest, end: at + block_bits(&head) })
}

/// "A block of n postings takes 44 + n(w + 8) bits".
fn block_bits(head: &Head) -> usize {
    HEAD + head.postings * (head.width as usize + 8)
}

/// 5: "block head or body passes the image's end; w above 24; more postings than the list has left".
fn judge_head(image: &Image, at: usize, left: usize, before: &[Block]) -> Result<Head, u32> {
    let rules = image.rules;
    if !(rules.ends_inside)(at + HEAD, image.bits()) {
        return Err(5);
    }
    let head = Head {
        postings: (rules.postings_of_block)(image.field(at, 7), before),
        width: image.field(at + 7, 5),
        largest: image.field(at + 12, 8),
        last: image.field(at + 20, 24),
    };
    if head.width > rules.widest_gap || !(rules.list_has_left)(head.postings, left) {
        return Err(5);
    }
    if !(rules.ends_inside)(at + block_bits(&head), image.bits()) {
        return Err(5);
    }
    Ok(head)
}

/// 6: "document number N or above, or impact 0".
fn judge_postings(
    image: &Image,
    header: &Header,
    start: usize,
    head: &Head,
    mut previous: i64,
) -> Result<Vec<Posting>, u32> {
    let rules = image.rules;
    let mut postings = Vec::new();
    for i in 0..head.postings {
        let at = start + i * (head.width as usize + 8);
        let document = (rules.document)(previous, image.field(at, head.width));
        let impact = image.field(at + head.width as usize, 8);
        if !(rules.document_is_sound)(document, header.documents) || impact < rules.least_impact {
            return Err(6);
        }
        postings.push(Posting { document: document as u32, impact });
        previous = document;
    }
    Ok(postings)
}
