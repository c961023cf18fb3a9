//! An image under construction, as document 01 lays it out: header, directory, lists, zero bits to the last byte's end.

use super::BitWriter;
use crate::index::{Index, List, Posting};

/// A block: 1 to 128 postings, and the width their gaps are written with.
#[derive(Clone, Debug, PartialEq, Eq)]
pub struct BlockDraft {
    pub postings: Vec<Posting>,
    pub width: u32,
}

/// A list cut into blocks; none for a term with no postings.
#[derive(Clone, Debug, Default, PartialEq, Eq)]
pub struct ListDraft {
    pub blocks: Vec<BlockDraft>,
}

/// An image's documents and lists.
#[derive(Clone, Debug, PartialEq, Eq)]
pub struct ImageDraft {
    pub documents: u32,
    pub lists: Vec<ListDraft>,
}

impl BlockDraft {
    /// The bits that the block takes.
    pub fn bits(&self) -> usize {
        44 + self.postings.len() * (self.width as usize + 8)
    }

    /// The number of its last document.
    pub fn last(&self) -> u32 {
        self.postings.last().expect("a block has a posting").document
    }
}

impl ListDraft {
    /// The bits that the list takes.
    pub fn bits(&self) -> usize {
        self.blocks.iter().map(BlockDraft::bits).sum()
    }

    /// All postings, in order.
    pub fn postings(&self) -> Vec<Posting> {
        self.blocks.iter().flat_map(|block| block.postings.clone()).collect()
    }
}

impl ImageDraft {
    /// The index that the image holds.
    pub fn index(&self) -> Index {
        let list = |draft: &ListDraft| {
            let postings = draft.postings();
            List { largest: largest(&postings), postings }
        };
        Index { documents: self.documents, lists: self.lists.iter().map(list).collect() }
    }

    /// The bytes of the image.
    pub fn bytes(&self) -> Vec<u8> {
        let terms = self.lists.len();
        let lists: usize = self.lists.iter().map(ListDraft::bits).sum();
        let bytes = (64 + 64 * terms + lists).div_ceil(8);
        let mut writer = BitWriter::default();
        writer.put(1, 4);
        writer.put(terms as u32, 12);
        writer.put(self.documents, 24);
        writer.put(bytes as u32, 24);
        self.write_directory(&mut writer);
        self.lists.iter().for_each(|list| write_list(&mut writer, list));
        writer.into_bytes()
    }

    fn write_directory(&self, writer: &mut BitWriter) {
        let mut due = 64 + 64 * self.lists.len();
        for list in &self.lists {
            let postings = list.postings();
            writer.put(if postings.is_empty() { 0 } else { due as u32 }, 32);
            writer.put(postings.len() as u32, 24);
            writer.put(largest(&postings), 8);
            due += list.bits();
        }
    }
}

fn largest(postings: &[Posting]) -> u32 {
    postings.iter().map(|posting| posting.impact).max().unwrap_or(0)
}

fn write_list(writer: &mut BitWriter, list: &ListDraft) {
    let mut next = 0;
    for block in &list.blocks {
        writer.put(block.postings.len() as u32 - 1, 7);
        writer.put(block.width, 5);
        writer.put(largest(&block.postings), 8);
        writer.put(block.last(), 24);
        for posting in &block.postings {
            writer.put(posting.document - next, block.width);
            writer.put(posting.impact, 8);
            next = posting.document + 1;
        }
    }
}
