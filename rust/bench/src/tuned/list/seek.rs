//! Looking up rising documents in a list that is much longer than they are many. Blocks are passed by their heads,
//! and inside a block as many postings at a time as fit into a load: one multiplication adds up their gaps.

use super::List;
use crate::tuned::bits::ending;
use crate::tuned::strides::{gaps, ones, per_load};

#[derive(Clone, Copy)]
pub struct Seeker<'a> {
    /// After the last posting passed; `due` is one more than its document, or `ENDED` after the list's last.
    list: List<'a>,
    /// The impact of the last posting passed.
    impact: u32,
}

const ENDED: u32 = u32::MAX;

/// How the postings of one gap width are passed together.
struct Group {
    postings: u32,
    bits: usize,
    gaps: u64,
    ones: u64,
    shift: usize,
}

static GROUPS: [Group; 25] = groups();

const fn groups() -> [Group; 25] {
    let mut groups = [const { Group { postings: 0, bits: 0, gaps: 0, ones: 0, shift: 0 } }; 25];
    let mut width = 0;
    while width < 25 {
        let stride = width + 8;
        let bits = per_load(stride) * stride;
        // The highest field of (gaps * ones), from bit `shift` on, is the sum of at most 7 gaps: 3 bits more than one.
        groups[width] = Group {
            postings: per_load(stride) as u32,
            bits,
            gaps: gaps(stride),
            ones: ones(stride) << (61 - bits),
            shift: 61 - width,
        };
        width += 1;
    }
    groups
}

impl<'a> Seeker<'a> {
    /// Before the next posting of the list.
    pub fn new(list: List<'a>) -> Seeker<'a> {
        Seeker { list, impact: 0 }
    }

    /// After so many postings of the list's block, of which this was the last.
    ///
    /// # Safety
    /// The block has so many postings left, and the last of them is this one.
    pub unsafe fn after(list: List<'a>, passed: usize, posting: u32) -> Seeker<'a> {
        let next = list.next + passed * (list.width + 8);
        let left = list.left - passed as u32;
        Seeker { list: List { next, left, due: (posting >> 8) + 1, ..list }, impact: posting & 0xFF }
    }

    /// The document's impact, or 0 where the list does not hold it.
    #[inline(always)]
    pub fn seek(&mut self, document: u32) -> u32 {
        if self.list.due <= document {
            self.pass(document);
        }
        if self.list.due == document + 1 { self.impact } else { 0 }
    }

    /// The document of the last posting passed: the list holds none between the last one sought and this.
    pub fn passed(&self) -> Option<u32> {
        (self.list.due != ENDED).then(|| self.list.due - 1)
    }

    /// Passes the postings up to the first whose document is `document` or above.
    fn pass(&mut self, document: u32) {
        let mut list = self.list;
        if !list.turn_to(document) {
            self.list.due = ENDED;
            return;
        }
        // SAFETY: a block's width is at most 24.
        let group = unsafe { GROUPS.get_unchecked(list.width) };
        while list.left >= group.postings {
            // SAFETY: the block has so many postings left.
            let postings = unsafe { ending(list.image, list.next + group.bits - 1) };
            let sum = (postings & group.gaps).wrapping_mul(group.ones) >> group.shift;
            let due = list.due + group.postings + sum as u32;
            if due > document {
                break;
            }
            list = List { next: list.next + group.bits, left: list.left - group.postings, due, ..list };
        }
        while list.due <= document {
            list.next += list.width + 8;
            list.left -= 1;
            // SAFETY: the block's last document is not yet passed, so that it had a posting left.
            let posting = unsafe { ending(list.image, list.next - 1) } as u32;
            list.due += 1 + (posting >> 8 & ((1 << list.width) - 1));
            self.impact = posting & 0xFF;
        }
        self.list = list;
    }
}
