//! Blocks, their heads and their postings.

use super::bits::BitReader;

pub const HEAD_BITS: usize = 44;

#[derive(Clone, Copy)]
pub struct Posting {
    pub document: u32,
    pub impact: u32,
}

#[derive(Clone, Copy)]
pub struct Head {
    pub postings: usize,
    pub width: usize,
    pub largest: u32,
    pub last: u32,
}

impl Head {
    pub fn read(image: &[u8], at: usize) -> Head {
        let mut reader = BitReader::new(image, at);
        Head {
            postings: reader.read(7) as usize + 1,
            width: reader.read(5) as usize,
            largest: reader.read(8),
            last: reader.read(24),
        }
    }

    /// The bits of the whole block.
    pub fn block_bits(&self) -> usize {
        HEAD_BITS + self.postings * (self.width + 8)
    }
}

/// Decodes the postings of the block at bit `at`; `next` is the document after the one before them.
pub fn decode(image: &[u8], at: usize, head: &Head, mut next: u32, postings: &mut Vec<Posting>) {
    let mut reader = BitReader::new(image, at + HEAD_BITS);
    postings.clear();
    for _ in 0..head.postings {
        let document = next + reader.read(head.width);
        let impact = reader.read(8);
        postings.push(Posting { document, impact });
        next = document + 1;
    }
}
