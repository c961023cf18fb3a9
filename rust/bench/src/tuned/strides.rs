//! The bits of a posting, its stride, are the same throughout a block: 8 to 32. What runs over all postings of a
//! block is compiled once for each stride, with constant shifts and as many postings to a load as fit.

/// So many postings of this stride are taken from one load.
pub const fn per_load(stride: usize) -> usize {
    57 / stride
}

/// The gaps of those postings, each in its place.
pub const fn gaps(stride: usize) -> u64 {
    (ones(stride) * ((1 << (stride - 8)) - 1)) << 8
}

/// A 1 in the lowest bit of each of those postings.
pub const fn ones(stride: usize) -> u64 {
    let mut ones = 0;
    let mut i = 0;
    while i < per_load(stride) {
        ones |= 1 << (i * stride);
        i += 1;
    }
    ones
}

/// A function's copies for the strides 8 to 32, to be chosen by the gap width 0 to 24.
macro_rules! for_each_stride {
    ($function:ident) => {
        [
            $function::<8>,
            $function::<9>,
            $function::<10>,
            $function::<11>,
            $function::<12>,
            $function::<13>,
            $function::<14>,
            $function::<15>,
            $function::<16>,
            $function::<17>,
            $function::<18>,
            $function::<19>,
            $function::<20>,
            $function::<21>,
            $function::<22>,
            $function::<23>,
            $function::<24>,
            $function::<25>,
            $function::<26>,
            $function::<27>,
            $function::<28>,
            $function::<29>,
            $function::<30>,
            $function::<31>,
            $function::<32>,
        ]
    };
}
pub(super) use for_each_stride;
