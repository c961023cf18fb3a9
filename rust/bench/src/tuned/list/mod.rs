//! A list of a judged image, read block by block.

mod scan;
mod seek;

pub use scan::Scan;
pub use seek::Seeker;

use super::fields::{HEAD, Head};
use super::judge::Judged;
use super::unpack::{BLOCK, unpack};

/// A list's reading: what is left of one of its blocks, all of it or less; nothing before the first block. All is true
/// of the judged image.
#[derive(Clone, Copy)]
pub struct List<'a> {
    image: &'a [u8],
    /// The bit of the next posting, the number of postings left in the block, and the width of their gaps.
    next: usize,
    left: u32,
    width: usize,
    /// The lowest document that the next posting can have, and one more than the block's last document.
    due: u32,
    end: u32,
    /// The list's postings after the block.
    rest: u32,
}

impl<'a> List<'a> {
    /// Before the first block of the term's list.
    pub fn new(image: Judged<'a>, term: u32) -> List<'a> {
        let entry = image.entry(term);
        List { image: image.image(), next: entry.first, left: 0, width: 0, due: 0, end: 0, rest: entry.postings }
    }

    /// The postings left in the block.
    pub fn block_left(&self) -> usize {
        self.left as usize
    }

    /// The postings left in the list.
    pub fn postings_left(&self) -> u32 {
        self.left + self.rest
    }

    /// One more than the block's last document.
    pub fn end(&self) -> u32 {
        self.end
    }

    /// Goes on to the next block, if there is one.
    #[inline(always)]
    pub fn turn(&mut self) -> bool {
        if self.rest == 0 {
            return false;
        }
        let at = self.next + self.left as usize * (self.width + 8);
        // SAFETY: a judged list with postings after a block has a head after it.
        let head = unsafe { Head::read(self.image, at) };
        *self = List {
            image: self.image,
            next: at + HEAD,
            left: head.postings,
            width: head.width,
            due: self.end,
            end: head.last + 1,
            rest: self.rest - head.postings,
        };
        true
    }

    /// Goes on to the first block, from this one on, that ends at the document or above; if there is one.
    #[inline(always)]
    pub fn turn_to(&mut self, document: u32) -> bool {
        let mut list = *self;
        let mut found = true;
        while found && list.end <= document {
            found = list.turn();
        }
        *self = list;
        found
    }

    /// Unpacks what is left of the block.
    #[inline(always)]
    pub fn unpack(&self, postings: &mut [u32; BLOCK]) {
        // SAFETY: the image was judged, and has these postings.
        unsafe { unpack(self.image, self.width, self.next, self.left as usize, self.due, postings) };
    }
}
