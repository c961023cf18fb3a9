//! A block unpacked: each posting is one number, its document times 256 plus its impact, so that postings compare as
//! their documents do.

use super::bits::ending;
use super::strides::{for_each_stride, per_load};

/// The most postings of a block.
pub const BLOCK: usize = 128;

type Unpacker = unsafe fn(&[u8], usize, usize, u32, &mut [u32; BLOCK]);

static UNPACKERS: [Unpacker; 25] = for_each_stride!(unpack_stride);

/// Unpacks `count` postings with gaps of this width from bit `start` on; `due` is the lowest document that the first
/// can have.
///
/// # Safety
/// The width is at most 24 and the count at most 128; the image has the postings, and a head before them.
#[inline(always)]
pub unsafe fn unpack(image: &[u8], width: usize, start: usize, count: usize, due: u32, postings: &mut [u32; BLOCK]) {
    // SAFETY: the caller's.
    unsafe { UNPACKERS.get_unchecked(width)(image, start, count, due, postings) }
}

unsafe fn unpack_stride<const S: usize>(
    image: &[u8],
    start: usize,
    count: usize,
    due: u32,
    postings: &mut [u32; BLOCK],
) {
    let per_load = per_load(S);
    let mut base = due << 8;
    let mut next = start;
    let mut done = 0;
    while done + per_load <= count {
        // SAFETY: these postings are among those that the image has.
        let loaded = unsafe { ending(image, next + per_load * S - 1) };
        for i in 0..per_load {
            let posting = (loaded >> ((per_load - 1 - i) * S)) as u32 & (u32::MAX >> (32 - S));
            // SAFETY: done + i is below count.
            unsafe { *postings.get_unchecked_mut(done + i) = base + posting };
            base += (posting & !0xFF) + 0x100;
        }
        next += per_load * S;
        done += per_load;
    }
    while done < count {
        // SAFETY: this posting is one of those that the image has.
        let posting = unsafe { ending(image, next + S - 1) } as u32 & (u32::MAX >> (32 - S));
        // SAFETY: done is below count.
        unsafe { *postings.get_unchecked_mut(done) = base + posting };
        base += (posting & !0xFF) + 0x100;
        next += S;
        done += 1;
    }
}
