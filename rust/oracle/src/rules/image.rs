//! What "The image" and refusals 1 to 8 compare.

use crate::judge::Block;

/// Each comparison or number with document 01's words beside it.
#[derive(Clone, Copy)]
pub struct ImageRules {
    /// 1: "image under 8 bytes".
    pub least_bytes: usize,
    /// 2: "version not 1".
    pub version: u32,
    /// 3: "length field not the image's length".
    pub length_is_true: fn(field: usize, bytes: usize) -> bool,
    /// 3: "8 + 8T exceeds it".
    pub directory_fits: fn(end: usize, bytes: usize) -> bool,
    /// 4: "postings 0 with another field not 0".
    pub empty_entry_is_sound: fn(first_bit: usize, largest: u32) -> bool,
    /// 4: "postings above N".
    pub postings_fit: fn(postings: usize, documents: u32) -> bool,
    /// 4: "list not at its due bit".
    pub is_at_due_bit: fn(first_bit: usize, due: usize) -> bool,
    /// 5: "block head or body passes the image's end".
    pub ends_inside: fn(end: usize, bits: usize) -> bool,
    /// 5: "w above 24".
    pub widest_gap: u32,
    /// 5: "more postings than the list has left".
    pub list_has_left: fn(postings: usize, left: usize) -> bool,
    /// "postings less one (7 bits, so 1 to 128 postings)".
    pub postings_of_block: fn(field: u32, before: &[Block]) -> usize,
    /// "the next begins at that bit, in the middle of a byte or not".
    pub next_block_bit: fn(end: usize) -> usize,
    /// "the previous document of the list".
    pub previous_of_block: fn(previous: i64) -> i64,
    /// "the previous document of the list plus 1 plus the gap".
    pub document: fn(previous: i64, gap: u32) -> i64,
    /// 6: "document number N or above".
    pub document_is_sound: fn(document: i64, documents: u32) -> bool,
    /// 6: "or impact 0".
    pub least_impact: u32,
    /// 7: "a block's last document".
    pub last_is_true: fn(field: u32, last: u32) -> bool,
    /// 7: "or largest impact".
    pub block_largest_is_true: fn(field: u32, largest: u32) -> bool,
    /// 7: "or a list's largest impact, is not the true one".
    pub list_largest_is_true: fn(field: u32, largest: u32) -> bool,
    /// The largest impact that a list's ceiling is made with.
    pub largest_of_list: fn(field: u32, blocks: &[Block]) -> u32,
    /// 8: "bits left after the last list are more than 7".
    pub most_bits_left: usize,
    /// 8: "or not all zero".
    pub bits_left_are_sound: fn(any_one: bool) -> bool,
    /// 4 to 7: the place is the term.
    pub term_place: fn(term: usize) -> usize,
    /// 8: the place is T.
    pub bits_left_place: fn(terms: usize) -> usize,
}

pub const DOCUMENT_01: ImageRules = ImageRules {
    least_bytes: 8,
    version: 1,
    length_is_true: |field, bytes| field == bytes,
    directory_fits: |end, bytes| end <= bytes,
    empty_entry_is_sound: |first_bit, largest| first_bit == 0 && largest == 0,
    postings_fit: |postings, documents| postings <= documents as usize,
    is_at_due_bit: |first_bit, due| first_bit == due,
    ends_inside: |end, bits| end <= bits,
    widest_gap: 24,
    list_has_left: |postings, left| postings <= left,
    postings_of_block: |field, _before| field as usize + 1,
    next_block_bit: |end| end,
    previous_of_block: |previous| previous,
    document: |previous, gap| previous + 1 + i64::from(gap),
    document_is_sound: |document, documents| document < i64::from(documents),
    least_impact: 1,
    last_is_true: |field, last| field == last,
    block_largest_is_true: |field, largest| field == largest,
    list_largest_is_true: |field, largest| field == largest,
    largest_of_list: |field, _blocks| field,
    most_bits_left: 7,
    bits_left_are_sound: |any_one| !any_one,
    term_place: |term| term,
    bits_left_place: |terms| terms,
};
