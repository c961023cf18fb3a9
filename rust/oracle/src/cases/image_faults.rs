//! Damage aimed at each of the refusals 1 to 8 at a random place, several at once, and random bit flips.

use super::{Damage, Random};
use crate::write::{At, Field, ImageDraft};

/// Some damage to the image.
pub fn random_damages(random: &mut Random, image: &ImageDraft) -> Vec<Damage> {
    match random.below(10) {
        0..6 => aimed_damages(random, image),
        6..8 => [aimed_damages(random, image), aimed_damages(random, image)].concat(),
        _ => {
            let bits = 8 * image.bytes().len();
            (0..random.between(1, 3)).map(|_| random_flip(random, bits)).collect()
        }
    }
}

/// Any bit but the top eight of N: the oracle would walk over millions of documents, which the tests of the largest
/// numbers of documents do by themselves.
fn random_flip(random: &mut Random, bits: usize) -> Damage {
    let bit = random.below(bits - 8);
    Damage::FlipFromEnd(if bit < bits - 24 { bit } else { bit + 8 })
}

/// Damage aimed at one refusal; 4 to 7 need a term, and 5 to 7 one with postings.
fn aimed_damages(random: &mut Random, image: &ImageDraft) -> Vec<Damage> {
    let term = random.below(image.lists.len().max(1));
    let block = random.below(image.lists.get(term).map_or(1, |list| list.blocks.len().max(1)));
    let at = At { term, block, posting: 0 };
    let has_postings = image.lists.get(term).is_some_and(|list| !list.blocks.is_empty());
    match random.between(1, 8) {
        1 => vec![Damage::Keep(random.below(8))],
        2 => vec![Damage::Set(Field::Version, at, random.pick(&[0, 2, 3, 9, 15]))],
        4 => vec![entry_damage(random, image, at)],
        5 if has_postings => size_damages(random, image, at),
        6 if has_postings => vec![posting_damage(random, image, at)],
        7 if has_postings => vec![summary_damage(random, at)],
        8 => rest_damages(random),
        _ => vec![length_damage(random, image.bytes().len() as u32)],
    }
}

/// 3, and what is found when the directory is read with another number of terms.
fn length_damage(random: &mut Random, bytes: u32) -> Damage {
    let header = At::default();
    match random.below(7) {
        0 => Damage::Move(Field::Length, header, random.pick(&[-1, 1])),
        1 => Damage::Set(Field::Length, header, random.any()),
        2 => Damage::Keep(bytes as usize - 1),
        3 => Damage::Append(vec![0]),
        4 => Damage::Set(Field::Terms, header, bytes / 8),
        5 => Damage::Set(Field::Terms, header, bytes / 8 - 1),
        _ => Damage::Move(Field::Terms, header, random.pick(&[-1, 1, 2])),
    }
}

/// 4: an entry of the directory.
fn entry_damage(random: &mut Random, image: &ImageDraft, at: At) -> Damage {
    match random.below(8) {
        0 => Damage::Set(Field::ListPostings, at, image.documents + random.between(1, 3)),
        1 => Damage::Set(Field::ListPostings, at, random.any()),
        2 => Damage::Set(Field::ListPostings, at, 0),
        3 => Damage::Move(Field::ListFirstBit, at, random.pick(&[-8, -1, 1, 8])),
        4 => Damage::Set(Field::ListFirstBit, at, 0),
        5 => Damage::Set(Field::ListFirstBit, at, random.any()),
        6 => Damage::Set(Field::ListFirstBit, at, 64 + 64 * image.lists.len() as u32),
        _ => Damage::Set(Field::ListLargest, at, random.between(0, 255)),
    }
}

/// 5: the width, the number of postings, or the image's end.
fn size_damages(random: &mut Random, image: &ImageDraft, at: At) -> Vec<Damage> {
    let bytes = image.bytes().len();
    match random.below(8) {
        0 => vec![Damage::Set(Field::BlockWidth, at, random.between(25, 31))],
        1 => vec![Damage::Move(Field::BlockWidth, at, random.pick(&[-1, 1]))],
        2 => vec![Damage::Set(Field::BlockPostings, at, random.between(0, 127))],
        3 => vec![Damage::Move(Field::BlockPostings, at, random.pick(&[-1, 1]))],
        4 => vec![Damage::Move(Field::ListPostings, at, random.pick(&[-1, 1]))],
        5 => vec![Damage::Keep(bytes - 1), Damage::SayLength],
        6 => {
            let block = image.lists[at.term].blocks.len() - 1;
            vec![Damage::Move(Field::BlockWidth, At { block, ..at }, 1)]
        }
        _ => vec![Damage::Keep(8 + random.below(bytes - 7)), Damage::SayLength],
    }
}

/// 6: a document number or an impact.
fn posting_damage(random: &mut Random, image: &ImageDraft, at: At) -> Damage {
    let block = &image.lists[at.term].blocks[at.block];
    let at = At { posting: random.below(block.postings.len()), ..at };
    match random.below(6) {
        0 | 1 => Damage::Set(Field::Impact, at, 0),
        2 => Damage::Set(Field::Gap, at, u32::MAX),
        3 => Damage::Move(Field::Gap, at, random.between(1, 9) as i32),
        4 => Damage::Set(Field::Documents, at, block.last()),
        _ => Damage::Move(Field::Documents, at, -1),
    }
}

/// 7: what a block or a list says of itself.
fn summary_damage(random: &mut Random, at: At) -> Damage {
    let by = random.pick(&[-1, 1]);
    match random.below(8) {
        0 => Damage::Move(Field::BlockLast, at, by),
        1 => Damage::Set(Field::BlockLast, at, random.any()),
        2 => Damage::Move(Field::BlockLargest, at, by),
        3 => Damage::Set(Field::BlockLargest, at, random.between(0, 255)),
        4 => Damage::Move(Field::ListLargest, at, by),
        5 => Damage::Set(Field::ListLargest, at, random.between(0, 255)),
        6 => Damage::Move(Field::Impact, at, by),
        _ => Damage::Move(Field::Gap, at, by),
    }
}

/// 8: the bits after the last list.
fn rest_damages(random: &mut Random) -> Vec<Damage> {
    match random.below(4) {
        0 => vec![Damage::FlipFromEnd(random.below(7))],
        1 => vec![Damage::Append(vec![0]), Damage::SayLength],
        2 => vec![Damage::Append(vec![random.any() as u8]), Damage::SayLength],
        _ => vec![Damage::Append(vec![0; random.below(9)]), Damage::SayLength],
    }
}
