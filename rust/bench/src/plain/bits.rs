//! A reader of fields, most significant bit first.

pub struct BitReader<'a> {
    bytes: &'a [u8],
    at: usize,
}

impl<'a> BitReader<'a> {
    pub fn new(bytes: &'a [u8], at: usize) -> BitReader<'a> {
        BitReader { bytes, at }
    }

    /// The next field, of at most 32 bits; they have to be there.
    pub fn read(&mut self, width: usize) -> u32 {
        let start = self.at / 8;
        let word = match self.bytes.get(start..start + 8) {
            Some(eight) => u64::from_be_bytes(eight.try_into().expect("eight bytes")),
            None => near_end(&self.bytes[start.min(self.bytes.len())..]),
        };
        let above = word << (self.at % 8);
        self.at += width;
        if width == 0 { 0 } else { (above >> (64 - width)) as u32 }
    }
}

/// Fewer than eight bytes, with zeros after them.
fn near_end(bytes: &[u8]) -> u64 {
    let mut word = [0; 8];
    word[..bytes.len()].copy_from_slice(bytes);
    u64::from_be_bytes(word)
}
