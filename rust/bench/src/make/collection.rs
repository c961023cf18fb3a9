//! A synthetic collection from a seed: documents spread at random over each list, impacts skewed low, blocks of 128 but
//! for a list's last, each with its smallest width. The oracle's writer packs it, 7 million postings in about a second.

use super::exponential::{Exponential, UNIT};
use oracle::cases::Random;
use oracle::index::Posting;
use oracle::write::{ImageDraft, cut};

const BLOCK: usize = 128;
/// About what impacts are above 1 on average.
const MEAN_IMPACT: u64 = 21;

/// A number of documents, and each term's number of postings.
pub struct Collection {
    pub documents: u32,
    pub lengths: Vec<usize>,
    pub seed: u64,
}

/// Lengths that fall like 1 / rank, the first being `longest`; `head` is the rank from which on they do.
pub fn falling(terms: usize, longest: usize, head: f64) -> Vec<usize> {
    (0..terms).map(|rank| (longest as f64 * head / (rank as f64 + head)) as usize).collect()
}

impl Collection {
    /// The bytes of the image.
    pub fn image(&self) -> Vec<u8> {
        let exponential = Exponential::new();
        let mut random = Random::new(self.seed);
        let list = |&length: &usize| cut(&self.postings(length, &exponential, &mut random), || BLOCK);
        ImageDraft { documents: self.documents, lists: self.lengths.iter().map(list).collect() }.bytes()
    }

    /// The number of all postings.
    pub fn postings_in_all(&self) -> usize {
        self.lengths.iter().sum()
    }

    /// A weight by rarity: 1 to 255, 255 for the shortest list.
    pub fn rarity(&self, term: usize) -> u32 {
        let rarity = |length: usize| (f64::from(self.documents) / length as f64).ln();
        let shortest = self.lengths.iter().copied().min().expect("a collection has a term");
        (255.0 * rarity(self.lengths[term]) / rarity(shortest)).round().max(1.0) as u32
    }

    /// So many postings. The documents that the list lacks are dealt out before, between and after them in
    /// exponential shares.
    fn postings(&self, length: usize, exponential: &Exponential, random: &mut Random) -> Vec<Posting> {
        let mut total = 0;
        let mut share = || {
            total += exponential.draw(random);
            total
        };
        let shares: Vec<u64> = (0..=length).map(|_| share()).collect();
        let lacking = u64::from(self.documents) - length as u64;
        let posting = |(place, share): (usize, &u64)| Posting {
            document: (place as u64 + share * lacking / total.max(1)) as u32,
            impact: (1 + exponential.draw(random) * MEAN_IMPACT / UNIT).min(255) as u32,
        };
        shares[..length].iter().enumerate().map(posting).collect()
    }
}
