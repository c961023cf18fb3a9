//! What a case lends to a finder, and what the finder leaves. Everything lent stands between guards: junk around image
//! and sheet, and guard numbers around the row and in it.

use crate::cases::Case;
use crate::outcome::Outcome;

/// A finder under comparison: image, sheet and row to outcome.
pub type Finder<'a> = dyn Fn(&[u8], &[u32], &mut [u32]) -> Outcome + Sync + 'a;

/// The rows of a case.
#[derive(Clone, Debug, PartialEq, Eq)]
pub struct Lent {
    pub image: Vec<u8>,
    pub sheet: Vec<u32>,
    pub room: usize,
}

/// What a finder said, and the row after the call with the guards on both its sides.
#[derive(Clone, Debug, PartialEq, Eq)]
pub struct Said {
    pub outcome: Outcome,
    guarded: Vec<u32>,
}

const GUARDS: usize = 8;

impl Lent {
    pub fn new(case: &Case) -> Lent {
        Lent { image: case.image_bytes(), sheet: case.sheet.numbers(), room: case.room() }
    }

    /// Calls the finder. The image starts anywhere in a word.
    pub fn ask(&self, finder: &Finder) -> Said {
        let before = self.image.len() % 8;
        let image = [&[0xEE; 8][..before], &self.image, &[0xEE; 8]].concat();
        let sheet = [&self.sheet[..], &[1; 4]].concat();
        let mut guarded: Vec<u32> = (0..self.room + 2 * GUARDS).map(guard).collect();
        let outcome = finder(
            &image[before..before + self.image.len()],
            &sheet[..self.sheet.len()],
            &mut guarded[GUARDS..GUARDS + self.room],
        );
        Said { outcome, guarded }
    }
}

impl Said {
    /// The answer row, without the guards around it.
    pub fn row(&self) -> &[u32] {
        &self.guarded[GUARDS..self.guarded.len() - GUARDS]
    }

    /// Whether only the numbers filled were written: "A refusal writes nothing", "Numbers past the last stretch stay".
    pub fn leaves_the_rest(&self) -> bool {
        let filled = self.outcome.unwrap_or(0);
        let stays = |at: usize| self.guarded[at] == guard(at);
        (0..GUARDS).chain(GUARDS + filled..self.guarded.len()).all(stays)
    }

    /// Each number that is lent, beside its place counted from the row's start.
    pub fn numbers(&self) -> impl Iterator<Item = (i64, u32)> {
        self.guarded.iter().enumerate().map(|(at, &number)| (at as i64 - GUARDS as i64, number))
    }
}

/// The number that stands at each place before the call.
fn guard(at: usize) -> u32 {
    (at as u32 + 1).wrapping_mul(0x9E37_79B9)
}
