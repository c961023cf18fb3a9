//! Header, directory entry and block head, each taken apart from one word.

use super::bits::ending;

/// The bits of a block's head.
pub const HEAD: usize = 44;

pub struct Header {
    pub version: u64,
    pub terms: usize,
    pub documents: u32,
    pub bytes: usize,
}

pub struct Entry {
    pub first: usize,
    pub postings: u32,
    pub largest: u32,
}

pub struct Head {
    pub postings: u32,
    pub width: usize,
    pub largest: u32,
    pub last: u32,
}

impl Header {
    /// # Safety
    /// The image has eight bytes.
    #[inline(always)]
    pub unsafe fn read(image: &[u8]) -> Header {
        // SAFETY: the caller's.
        let word = unsafe { ending(image, 63) };
        Header {
            version: word >> 60,
            terms: (word >> 48 & 0xFFF) as usize,
            documents: (word >> 24 & 0xFF_FFFF) as u32,
            bytes: (word & 0xFF_FFFF) as usize,
        }
    }
}

impl Entry {
    /// # Safety
    /// The image's directory has the term.
    #[inline(always)]
    pub unsafe fn read(image: &[u8], term: usize) -> Entry {
        // SAFETY: the caller's.
        let word = unsafe { ending(image, 64 + 64 * term + 63) };
        Entry { first: (word >> 32) as usize, postings: (word >> 8 & 0xFF_FFFF) as u32, largest: (word & 0xFF) as u32 }
    }
}

impl Head {
    /// # Safety
    /// The image has the 44 bits from bit `at` on, after header and directory.
    #[inline(always)]
    pub unsafe fn read(image: &[u8], at: usize) -> Head {
        // SAFETY: the caller's.
        let word = unsafe { ending(image, at + HEAD - 1) };
        Head {
            postings: (word >> 37 & 0x7F) as u32 + 1,
            width: (word >> 32 & 0x1F) as usize,
            largest: (word >> 24 & 0xFF) as u32,
            last: (word & 0xFF_FFFF) as u32,
        }
    }

    /// The bits of the block's postings.
    #[inline(always)]
    pub fn body(&self) -> usize {
        self.postings as usize * (self.width + 8)
    }
}
