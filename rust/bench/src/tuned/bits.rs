//! Eight bytes at a time. A field is taken from the word that ends with the byte of the field's last bit: such a word
//! begins in header or directory at the earliest, and never passes the image's end, so that no end needs a test.

/// The word whose lowest bit is bit `last` of the image. At least its 57 lowest bits are the image's.
///
/// # Safety
/// The image has bit `last`, which is not below 56.
#[inline(always)]
pub unsafe fn ending(image: &[u8], last: usize) -> u64 {
    // SAFETY: the image has the byte of bit `last`, and the seven before it.
    let word = unsafe { image.as_ptr().add(last / 8 - 7).cast::<u64>().read_unaligned() };
    u64::from_be(word) >> (7 - last % 8)
}
