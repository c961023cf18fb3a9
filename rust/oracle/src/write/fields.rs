//! Where each field of a written image stands, so that a test can damage it.

use super::ImageDraft;

/// A field by its name.
#[derive(Clone, Copy, Debug, PartialEq, Eq)]
pub enum Field {
    Version,
    Terms,
    Documents,
    Length,
    ListFirstBit,
    ListPostings,
    ListLargest,
    BlockPostings,
    BlockWidth,
    BlockLargest,
    BlockLast,
    Gap,
    Impact,
}

/// Whose field it is: terms, a list's blocks and a block's postings are counted from 0.
#[derive(Clone, Copy, Debug, Default, PartialEq, Eq)]
pub struct At {
    pub term: usize,
    pub block: usize,
    pub posting: usize,
}

impl ImageDraft {
    /// The first bit and the width of a field, if the image has it.
    pub fn locate(&self, field: Field, at: At) -> Option<(usize, u32)> {
        match field {
            Field::Version => Some((0, 4)),
            Field::Terms => Some((4, 12)),
            Field::Documents => Some((16, 24)),
            Field::Length => Some((40, 24)),
            Field::ListFirstBit => Some((self.entry_bit(at)?, 32)),
            Field::ListPostings => Some((self.entry_bit(at)? + 32, 24)),
            Field::ListLargest => Some((self.entry_bit(at)? + 56, 8)),
            Field::BlockPostings => Some((self.block_bit(at)?, 7)),
            Field::BlockWidth => Some((self.block_bit(at)? + 7, 5)),
            Field::BlockLargest => Some((self.block_bit(at)? + 12, 8)),
            Field::BlockLast => Some((self.block_bit(at)? + 20, 24)),
            Field::Gap => self.gap(at),
            Field::Impact => self.gap(at).map(|(bit, width)| (bit + width as usize, 8)),
        }
    }

    fn entry_bit(&self, at: At) -> Option<usize> {
        (at.term < self.lists.len()).then_some(64 + 64 * at.term)
    }

    fn block_bit(&self, at: At) -> Option<usize> {
        let list = self.lists.get(at.term)?;
        list.blocks.get(at.block)?;
        let lists_before: usize = self.lists[..at.term].iter().map(|list| list.bits()).sum();
        let blocks_before: usize = list.blocks[..at.block].iter().map(|block| block.bits()).sum();
        Some(64 + 64 * self.lists.len() + lists_before + blocks_before)
    }

    fn gap(&self, at: At) -> Option<(usize, u32)> {
        let start = self.block_bit(at)? + 44;
        let block = &self.lists[at.term].blocks[at.block];
        block.postings.get(at.posting)?;
        Some((start + at.posting * (block.width as usize + 8), block.width))
    }
}
