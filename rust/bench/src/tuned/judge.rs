//! Judging the image: refusals 1 to 8 in the written order.

use super::bits::ending;
use super::fields::{Entry, HEAD, Head, Header};
use super::survey::survey;
use oracle::outcome::{Refusal, refuse};

/// An image that was judged and not refused.
#[derive(Clone, Copy)]
pub struct Judged<'a> {
    image: &'a [u8],
}

impl<'a> Judged<'a> {
    /// Judges the image; the error is the first fault found.
    pub fn new(image: &'a [u8]) -> Result<Judged<'a>, Refusal> {
        if image.len() < 8 {
            return refuse(1, 0);
        }
        // SAFETY: there are eight bytes.
        let header = unsafe { Header::read(image) };
        if header.version != 1 {
            return refuse(2, 0);
        }
        if header.bytes != image.len() || 8 + 8 * header.terms > image.len() {
            return refuse(3, 0);
        }
        let mut due = 64 + 64 * header.terms;
        for term in 0..header.terms {
            match judge_list(image, &header, term, due) {
                Ok(end) => due = end,
                Err(number) => return refuse(number, term),
            }
        }
        let left = 8 * image.len() - due;
        // SAFETY: the image has its last bit, and eight bytes.
        if left > 7 || unsafe { ending(image, 8 * image.len() - 1) } & ((1 << left) - 1) != 0 {
            return refuse(8, header.terms);
        }
        Ok(Judged { image })
    }

    pub fn image(&self) -> &'a [u8] {
        self.image
    }

    pub fn header(&self) -> Header {
        // SAFETY: a judged image has eight bytes.
        unsafe { Header::read(self.image) }
    }

    pub fn entry(&self, term: u32) -> Entry {
        assert!((term as usize) < self.header().terms);
        // SAFETY: a judged image has its directory.
        unsafe { Entry::read(self.image, term as usize) }
    }
}

/// The bit after the term's list, which is due at bit `due`; or the refusal's number.
fn judge_list(image: &[u8], header: &Header, term: usize, due: usize) -> Result<usize, u32> {
    // SAFETY: the directory is inside the image.
    let entry = unsafe { Entry::read(image, term) };
    if entry.postings == 0 {
        return if entry.first == 0 && entry.largest == 0 { Ok(due) } else { Err(4) };
    }
    if entry.postings > header.documents || entry.first != due {
        return Err(4);
    }
    let mut at = due;
    let mut left = entry.postings;
    let mut document = 0;
    let mut largest = 0;
    while left > 0 {
        let head = judge_block(image, header, at, left, document)?;
        at += HEAD + head.body();
        left -= head.postings;
        document = head.last + 1;
        largest = largest.max(head.largest);
    }
    if largest == entry.largest { Ok(at) } else { Err(7) }
}

/// The block at bit `at` of a list with `left` postings left, whose next document is `document` at the lowest.
/// Documents rise, so that the last one alone tells whether all are below N.
#[inline(always)]
fn judge_block(image: &[u8], header: &Header, at: usize, left: u32, document: u32) -> Result<Head, u32> {
    let end = 8 * image.len();
    if at + HEAD > end {
        return Err(5);
    }
    // SAFETY: the head is inside the image, after its term's entry.
    let head = unsafe { Head::read(image, at) };
    if head.width > 24 || head.postings > left || at + HEAD + head.body() > end {
        return Err(5);
    }
    // SAFETY: the width is at most 24, a head tells of at most 128 postings, and they are inside the image.
    let survey = unsafe { survey(image, head.width, at + HEAD, head.postings as usize) };
    let after = u64::from(document) + survey.gaps + u64::from(head.postings);
    if after > u64::from(header.documents) || survey.least == 0 {
        return Err(6);
    }
    if after != u64::from(head.last) + 1 || u32::from(survey.largest) != head.largest {
        return Err(7);
    }
    Ok(head)
}
