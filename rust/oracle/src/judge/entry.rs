//! "Directory, T entries of 64 bits: first bit of the list (32), number of postings (24), largest impact of the list
//! (8). A term with no postings has all three 0." Refusal 4.

use super::Image;
use super::header::Header;
use crate::outcome::{Refusal, refuse};

pub struct Entry {
    pub postings: usize,
    pub largest: u32,
}

/// `due` is the bit where this term's list has to start, if it has postings.
pub fn judge_entry(image: &Image, header: &Header, term: usize, due: usize) -> Result<Entry, Refusal> {
    let rules = image.rules;
    let at = 64 + 64 * term;
    let first_bit = image.field(at, 32) as usize;
    let postings = image.field(at + 32, 24) as usize;
    let largest = image.field(at + 56, 8);
    let sound = if postings == 0 {
        (rules.empty_entry_is_sound)(first_bit, largest)
    } else {
        (rules.postings_fit)(postings, header.documents) && (rules.is_at_due_bit)(first_bit, due)
    };
    if !sound {
        return refuse(4, (rules.term_place)(term));
    }
    Ok(Entry { postings, largest })
}
