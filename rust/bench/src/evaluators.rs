//! The evaluators that are measured side by side, and asking them.

use crate::{plain, tuned};
use oracle::outcome::{Outcome, Refusal};

pub struct Evaluator {
    pub name: &'static str,
    pub answer: fn(&[u8], &[u32], &mut [u32]) -> Outcome,
}

pub const COUNT: usize = 3;
pub const FINDER: usize = 0;
pub const TUNED: usize = 1;
pub const PLAIN: usize = 2;

pub const EVALUATORS: [Evaluator; COUNT] = [
    Evaluator { name: "finder", answer: finder },
    Evaluator { name: "tuned", answer: tuned::answer },
    Evaluator { name: "plain", answer: plain::answer },
];

/// A sheet of one query whose budget stops it at once: what such a call takes is judging the image.
pub const JUDGING: [u32; 7] = [1, 0, 1, 0, 1, 0, 1];

/// The longest row that a sheet can fill.
pub const LONGEST_ROW: usize = 64 * (3 + 2 * 64);

/// This finder: the static library through its Rust face.
fn finder(image: &[u8], sheet: &[u32], row: &mut [u32]) -> Outcome {
    clipfinder::answer_into(image, sheet, row)
        .map_err(|refusal| Refusal { number: refusal.number, place: refusal.place })
}

/// The postings scored of all queries, from the row that an accepted sheet filled.
pub fn postings_scored(sheet: &[u32], row: &[u32]) -> u64 {
    let mut scored = 0;
    let mut rest = &sheet[1..];
    let mut start = 0;
    while let [_, k, _, q, after @ ..] = rest {
        scored += u64::from(row[start + 2]);
        start += 3 + 2 * *k as usize;
        rest = &after[2 * *q as usize..];
    }
    scored
}
