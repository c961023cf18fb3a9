//! A refusal: the number and place that the call gives, and what they mean in words.

use std::error::Error;
use std::fmt;

/// Why a call was refused: the refusal's number, and the place that goes with it (a term, a query, or a count).
#[derive(Clone, Copy, Debug, PartialEq, Eq, Hash)]
pub struct Refusal {
    pub number: u32,
    pub place: u64,
}

impl Refusal {
    /// What is wrong.
    pub fn meaning(&self) -> &'static str {
        match self.number {
            1 => "the image is under 8 bytes",
            2 => "the image's version is not 1",
            3 => "the image's length field is not its length, or the directory passes its end",
            4 => {
                "the directory's entry is at fault: fields beside 0 postings, more postings than documents, or a list not at its due bit"
            }
            5 => "a block passes the image's end, has a gap width above 24, or more postings than the list has left",
            6 => "a document number is not below the number of documents, or an impact is 0",
            7 => "a block's last document or largest impact, or the list's largest impact, is not the true one",
            8 => "the bits left after the last list are more than 7 or not all zero",
            9 => "the number of queries is not 1 to 64, or numbers are missing or left over",
            10 => "the mode is above 2",
            11 => "k is not 1 to 64",
            12 => "the number of terms is not 1 to 16",
            13 => "a term is not in the index",
            14 => "a weight is not 1 to 255",
            15 => "the answer row is too short",
            _ => "a refusal that this face has no words for",
        }
    }
}

impl fmt::Display for Refusal {
    fn fmt(&self, f: &mut fmt::Formatter<'_>) -> fmt::Result {
        let Refusal { number, place } = self;
        let meaning = self.meaning();
        match number {
            1..=3 => write!(f, "refused {number} at the image's head: {meaning}"),
            4..=7 => write!(f, "refused {number} at term {place}: {meaning}"),
            8 => write!(f, "refused {number} after all {place} terms: {meaning}"),
            9..=14 => write!(f, "refused {number} at query {place}: {meaning}"),
            15 => write!(f, "refused {number}: {meaning}, {place} numbers are needed"),
            _ => write!(f, "refused {number} at {place}: {meaning}"),
        }
    }
}

impl Error for Refusal {}
