//! "The outcome is either done with the count of numbers filled, or refused with a number and a place."

/// A row of document 01's table: the refusal's number and the place given with it.
#[derive(Clone, Copy, Debug, PartialEq, Eq)]
pub struct Refusal {
    pub number: u32,
    pub place: u64,
}

/// Done with the count of numbers filled, or refused.
pub type Outcome = Result<usize, Refusal>;

/// The refusal with this number at this place.
pub fn refuse<T>(number: u32, place: usize) -> Result<T, Refusal> {
    Err(Refusal { number, place: place as u64 })
}
