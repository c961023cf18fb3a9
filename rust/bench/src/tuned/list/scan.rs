//! Looking up rising documents in a list that is not much longer than they are many: its blocks are unpacked, and
//! gone through four postings at a time.

use super::List;
use crate::tuned::unpack::BLOCK;

const STEP: usize = 4;

pub struct Scan<'a> {
    list: List<'a>,
    /// The block, and numbers above all postings after it.
    postings: [u32; BLOCK + STEP],
    at: usize,
}

impl<'a> Scan<'a> {
    /// Before the list's first block.
    pub fn new(list: List<'a>) -> Scan<'a> {
        Scan { list, postings: [u32::MAX; BLOCK + STEP], at: 0 }
    }

    /// The list's first posting from the document on, if there is one.
    #[inline(always)]
    pub fn seek(&mut self, document: u32) -> Option<u32> {
        if self.list.end <= document && !self.turn_to(document) {
            return None;
        }
        loop {
            // SAFETY: not all of the block's postings are below, and STEP numbers follow them.
            let postings = unsafe { self.postings.get_unchecked(self.at..self.at + STEP) };
            let below: usize = postings.iter().map(|&posting| usize::from(posting < document << 8)).sum();
            self.at += below;
            if below < STEP {
                // SAFETY: as before.
                return Some(unsafe { *self.postings.get_unchecked(self.at) });
            }
        }
    }

    #[cold]
    #[inline(never)]
    fn turn_to(&mut self, document: u32) -> bool {
        if !self.list.turn_to(document) {
            return false;
        }
        self.list.unpack(self.postings.first_chunk_mut().expect("room for a block"));
        self.postings[self.list.block_left()..][..STEP].fill(u32::MAX);
        self.at = 0;
        true
    }
}
