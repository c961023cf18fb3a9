//! Judging the image: refusals 1 to 8 in the written order.

use super::bits::BitReader;
use super::block::{HEAD_BITS, Head, Posting, decode};
use oracle::outcome::{Refusal, refuse};

/// Where a term's list starts, its postings and its largest impact.
pub struct List {
    pub first_bit: usize,
    pub postings: usize,
    pub largest: u32,
}

pub struct Index<'a> {
    pub image: &'a [u8],
    pub documents: u32,
    pub lists: Vec<List>,
}

pub fn judge_image(image: &[u8]) -> Result<Index<'_>, Refusal> {
    if image.len() < 8 {
        return refuse(1, 0);
    }
    let mut header = BitReader::new(image, 0);
    if header.read(4) != 1 {
        return refuse(2, 0);
    }
    let terms = header.read(12) as usize;
    let documents = header.read(24);
    if header.read(24) as usize != image.len() || 8 + 8 * terms > image.len() {
        return refuse(3, 0);
    }
    let mut index = Index { image, documents, lists: Vec::with_capacity(terms) };
    let mut due = 64 + 64 * terms;
    for term in 0..terms {
        match judge_list(&mut index, term, due) {
            Ok(end) => due = end,
            Err(number) => return refuse(number, term),
        }
    }
    let left = 8 * image.len() - due;
    if left > 7 || BitReader::new(image, due).read(left) != 0 {
        return refuse(8, terms);
    }
    Ok(index)
}

/// Judges the list that is due at bit `due` and gives the bit after it; or the refusal's number.
fn judge_list(index: &mut Index, term: usize, due: usize) -> Result<usize, u32> {
    let mut entry = BitReader::new(index.image, 64 + 64 * term);
    let list = List { first_bit: entry.read(32) as usize, postings: entry.read(24) as usize, largest: entry.read(8) };
    let sound = match list.postings {
        0 => list.first_bit == 0 && list.largest == 0,
        postings => postings <= index.documents as usize && list.first_bit == due,
    };
    if !sound {
        return Err(4);
    }
    let mut at = due;
    let mut left = list.postings;
    let mut next = 0;
    let mut largest = 0;
    let mut postings = Vec::with_capacity(128);
    while left > 0 {
        let head = judge_block(index, at, left, next, &mut postings)?;
        at += head.block_bits();
        left -= head.postings;
        next = head.last + 1;
        largest = largest.max(head.largest);
    }
    if largest != list.largest {
        return Err(7);
    }
    index.lists.push(list);
    Ok(at)
}

/// Judges one block: its head, its postings, and whether the head tells the truth of them.
fn judge_block(index: &Index, at: usize, left: usize, next: u32, postings: &mut Vec<Posting>) -> Result<Head, u32> {
    let end = 8 * index.image.len();
    if at + HEAD_BITS > end {
        return Err(5);
    }
    let head = Head::read(index.image, at);
    if head.width > 24 || head.postings > left || at + head.block_bits() > end {
        return Err(5);
    }
    decode(index.image, at, &head, next, postings);
    if postings.iter().any(|posting| posting.document >= index.documents || posting.impact == 0) {
        return Err(6);
    }
    let last = postings.last().map(|posting| posting.document);
    let largest = postings.iter().map(|posting| posting.impact).max();
    if last != Some(head.last) || largest != Some(head.largest) {
        return Err(7);
    }
    Ok(head)
}
