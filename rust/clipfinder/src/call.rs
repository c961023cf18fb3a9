//! The exported call, and its one unsafe step.

use crate::Refusal;

unsafe extern "C" {
    /// Answers with number * 2^56 + value: number 0 is done and the value the count of numbers filled,
    /// else the number is the refusal's and the value its place.
    fn finder_answer(
        image: *const u8,
        image_len: usize,
        sheet: *const u32,
        sheet_len: usize,
        row: *mut u32,
        row_len: usize,
    ) -> u64;
}

const VALUE_BITS: u32 = 56;

/// Judges image and sheet and fills the row; gives the count of numbers filled, or the refusal, which leaves the row
/// as it was.
pub fn answer_into(image: &[u8], sheet: &[u32], row: &mut [u32]) -> Result<usize, Refusal> {
    // SAFETY: each pointer comes with the length of the slice it is taken from; image and sheet are only read,
    // and the row is lent to this call alone.
    let said =
        unsafe { finder_answer(image.as_ptr(), image.len(), sheet.as_ptr(), sheet.len(), row.as_mut_ptr(), row.len()) };
    let number = (said >> VALUE_BITS) as u32;
    let value = said & ((1 << VALUE_BITS) - 1);
    match number {
        0 => Ok(value as usize),
        _ => Err(Refusal { number, place: value }),
    }
}
