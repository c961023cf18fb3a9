//! "Fields are bit-packed, most significant bit first, with no padding between them. Bit 0 is the top bit of byte 0."

use crate::rules::ImageRules;

/// The bytes under judgement, and the rules they are judged by.
pub struct Image<'a> {
    pub bytes: &'a [u8],
    pub rules: &'a ImageRules,
}

impl Image<'_> {
    /// The number of bits, those after the last list among them.
    pub fn bits(&self) -> usize {
        8 * self.bytes.len()
    }

    /// One bit; 0 past the end, where refusals 3 and 5 let nothing be read.
    pub fn bit(&self, at: usize) -> u32 {
        let byte = self.bytes.get(at / 8).copied().unwrap_or(0);
        u32::from(byte >> (7 - at % 8) & 1)
    }

    /// The field of `width` bits that starts at bit `at`.
    pub fn field(&self, at: usize, width: u32) -> u32 {
        (0..width as usize).fold(0, |value, i| 2 * value + self.bit(at + i))
    }
}
