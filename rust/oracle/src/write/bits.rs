//! A writer of fields, most significant bit first, and the overwriting of a field that stands.

/// Bytes under construction.
#[derive(Default)]
pub struct BitWriter {
    bytes: Vec<u8>,
    bits: usize,
}

impl BitWriter {
    /// Appends a field of `width` bits, which has to hold the value.
    pub fn put(&mut self, value: u32, width: u32) {
        assert!(u64::from(value) < 1 << width, "{value} does not fit in {width} bits");
        let at = self.bits;
        self.bits += width as usize;
        self.bytes.resize(self.bits.div_ceil(8), 0);
        put_field(&mut self.bytes, at, width, value);
    }

    /// The bits written so far.
    pub fn bits(&self) -> usize {
        self.bits
    }

    /// The bytes, with zero bits to the end of the last.
    pub fn into_bytes(self) -> Vec<u8> {
        self.bytes
    }
}

/// Sets the field of `width` bits at bit `at` to the value's low bits; bits past the end are let fall.
pub fn put_field(bytes: &mut [u8], at: usize, width: u32, value: u32) {
    for i in 0..width {
        let bit = at + i as usize;
        let Some(byte) = bytes.get_mut(bit / 8) else {
            return;
        };
        let mask = 0x80 >> (bit % 8);
        match value >> (width - 1 - i) & 1 {
            0 => *byte &= !mask,
            _ => *byte |= mask,
        }
    }
}
