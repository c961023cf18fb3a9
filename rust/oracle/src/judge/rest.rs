//! "Zero bits, at most 7, to the end of the last byte." Refusal 8.

use super::Image;
use super::header::Header;
use crate::outcome::{Refusal, refuse};

/// `end` is the bit after the last list, or after the directory where no list has postings.
pub fn judge_rest(image: &Image, header: &Header, end: usize) -> Result<(), Refusal> {
    let rules = image.rules;
    let left = image.bits().saturating_sub(end);
    let any_one = (end..image.bits()).any(|at| image.bit(at) == 1);
    if left > rules.most_bits_left || !(rules.bits_left_are_sound)(any_one) {
        return refuse(8, (rules.bits_left_place)(header.terms));
    }
    Ok(())
}
