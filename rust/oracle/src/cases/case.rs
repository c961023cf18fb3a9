//! A case: an image with its damage, a sheet, and how much longer or shorter the answer row is than needed.

use super::damage::damaged;
use super::image_faults::random_damages;
use super::sheet_faults::random_faults;
use super::sheets::{draft_sheet, query_count};
use super::{Damage, Random, draft_image};
use crate::write::{ImageDraft, SheetDraft};

#[derive(Clone, Debug, PartialEq, Eq)]
pub struct Case {
    pub image: ImageDraft,
    pub damages: Vec<Damage>,
    pub sheet: SheetDraft,
    pub spare: i64,
}

impl Case {
    /// The case of a seed: any image, any sheet, one in four images damaged and one in nine sheets at fault.
    pub fn from_seed(seed: u64) -> Case {
        let mut random = Random::new(seed);
        let image = draft_image(&mut random);
        let damages = if random.one_in(4) { random_damages(&mut random, &image) } else { Vec::new() };
        let faulty = random.one_in(9);
        let queries = if faulty { random.between(1, 6) } else { query_count(&mut random, &image) };
        let mut sheet = draft_sheet(&mut random, &image, queries);
        if faulty {
            random_faults(&mut random, &mut sheet, image.lists.len());
        }
        let spare = match random.below(40) {
            0 => -1,
            1 => -i64::from(random.between(1, 200)),
            2..12 => i64::from(random.between(1, 20)),
            _ => 0,
        };
        Case { image, damages, sheet, spare }
    }

    /// The bytes of the image, damaged.
    pub fn image_bytes(&self) -> Vec<u8> {
        damaged(&self.image, &self.damages)
    }

    /// The length of the answer row.
    pub fn room(&self) -> usize {
        (self.sheet.needed() as i64 + self.spare).max(0) as usize
    }
}
