//! What judging needs to know of a block's postings. Gaps are added up side by side in one word; impacts are laid out
//! as bytes, which the compiler gives to the vector unit.

use super::bits::ending;
use super::strides::{for_each_stride, gaps, per_load};

pub struct Survey {
    /// The sum of the gaps.
    pub gaps: u64,
    pub largest: u8,
    pub least: u8,
}

type Surveyor = unsafe fn(&[u8], usize, usize) -> Survey;

static SURVEYORS: [Surveyor; 25] = for_each_stride!(survey_stride);

/// Surveys `count` postings with gaps of this width from bit `start` on.
///
/// # Safety
/// The width is at most 24 and the count at most 128; the image has the postings, and a head before them.
#[inline(always)]
pub unsafe fn survey(image: &[u8], width: usize, start: usize, count: usize) -> Survey {
    // SAFETY: the caller's.
    unsafe { SURVEYORS.get_unchecked(width)(image, start, count) }
}

unsafe fn survey_stride<const S: usize>(image: &[u8], start: usize, count: usize) -> Survey {
    let per_load = per_load(S);
    // An impact of 1 where there is no posting changes neither the largest nor whether the least is 0.
    let mut impacts = [1; 128];
    // A sum of at most 128 / per_load gaps takes up to 7 bits more than a gap: above each gap are 8, or 7 at the top.
    let mut sums = 0;
    let mut next = start;
    let mut done = 0;
    while done + per_load <= count {
        // SAFETY: these postings are among those that the image has.
        let postings = unsafe { ending(image, next + per_load * S - 1) };
        sums += postings & gaps(S);
        for i in 0..per_load {
            // SAFETY: done + i is below count.
            unsafe { *impacts.get_unchecked_mut(done + i) = (postings >> ((per_load - 1 - i) * S)) as u8 };
        }
        next += per_load * S;
        done += per_load;
    }
    let mut total: u64 = (0..per_load).map(|i| sums >> (i * S + 8) & ((1 << S) - 1)).sum();
    while done < count {
        // SAFETY: this posting is one of those that the image has.
        let posting = unsafe { ending(image, next + S - 1) };
        total += posting >> 8 & ((1 << (S - 8)) - 1);
        // SAFETY: done is below count.
        unsafe { *impacts.get_unchecked_mut(done) = posting as u8 };
        next += S;
        done += 1;
    }
    let (largest, least) = impacts.iter().fold((0, u8::MAX), |(most, least), &i| (most.max(i), least.min(i)));
    Survey { gaps: total, largest, least }
}
