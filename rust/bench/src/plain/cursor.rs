//! A list read posting by posting, decoded a block at a time.

use super::block::{Head, Posting, decode};
use super::judge::{Index, List};

pub struct Cursor<'a> {
    image: &'a [u8],
    next_block: usize,
    left: usize,
    /// The document after the last of the block.
    next_document: u32,
    block: Vec<Posting>,
    at: usize,
}

impl<'a> Cursor<'a> {
    /// At the list's first posting.
    pub fn new(index: &Index<'a>, list: &List) -> Cursor<'a> {
        let mut cursor = Cursor {
            image: index.image,
            next_block: list.first_bit,
            left: list.postings,
            next_document: 0,
            block: Vec::with_capacity(128),
            at: 0,
        };
        cursor.load(0);
        cursor
    }

    /// The posting that the cursor is at, none after the last.
    pub fn current(&self) -> Option<Posting> {
        self.block.get(self.at).copied()
    }

    /// The impact of the document, if the cursor is at it.
    pub fn impact_of(&self, document: u32) -> Option<u32> {
        self.current().filter(|posting| posting.document == document).map(|posting| posting.impact)
    }

    /// Goes on to the next posting.
    pub fn advance(&mut self) {
        self.at += 1;
        if self.at == self.block.len() {
            self.load(0);
        }
    }

    /// Goes on to the first posting of the document or one above.
    pub fn seek(&mut self, document: u32) {
        if self.next_document <= document {
            self.load(document);
        }
        while self.current().is_some_and(|posting| posting.document < document) {
            self.at += 1;
        }
    }

    /// Decodes the next block that ends at the document or above, and passes those before by their heads.
    fn load(&mut self, document: u32) {
        self.block.clear();
        self.at = 0;
        while self.left > 0 {
            let head = Head::read(self.image, self.next_block);
            let at = self.next_block;
            let next = self.next_document;
            self.next_block += head.block_bits();
            self.left -= head.postings;
            self.next_document = head.last + 1;
            if head.last >= document {
                decode(self.image, at, &head, next, &mut self.block);
                return;
            }
        }
    }
}
