//! Exponentially distributed numbers from a table of quantiles, as whole numbers, so that one seed makes one image
//! on every machine.

use oracle::cases::Random;

const QUANTILES: usize = 1 << 16;

/// What 1, the mean, is written as.
pub const UNIT: u64 = 1 << 16;

pub struct Exponential {
    quantiles: Vec<u64>,
}

impl Exponential {
    pub fn new() -> Exponential {
        let quantile = |i: usize| (-((i as f64 + 0.5) / QUANTILES as f64).ln() * UNIT as f64).round() as u64;
        Exponential { quantiles: (0..QUANTILES).map(quantile).collect() }
    }

    pub fn draw(&self, random: &mut Random) -> u64 {
        self.quantiles[random.below(QUANTILES)]
    }
}
