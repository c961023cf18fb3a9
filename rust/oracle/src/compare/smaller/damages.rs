//! Less damage, or the same damage nearer to the start.

use super::{lower, with, without_one};
use crate::cases::Damage;
use crate::write::At;

pub fn smaller_damages(damages: &[Damage]) -> impl Iterator<Item = Vec<Damage>> {
    let nearer = (0..damages.len()).flat_map(move |i| {
        let nearer = nearer(&damages[i]).into_iter();
        nearer.map(move |damage| with(&damages.to_vec(), |damages| damages[i] = damage))
    });
    without_one(damages).chain(nearer)
}

fn nearer(damage: &Damage) -> Vec<Damage> {
    match *damage {
        Damage::Set(field, at, value) => nearer_places(at).map(|at| Damage::Set(field, at, value)).collect(),
        Damage::Move(field, at, by) => nearer_places(at).map(|at| Damage::Move(field, at, by)).collect(),
        Damage::FlipFromEnd(bit) => lower_places(bit).map(Damage::FlipFromEnd).collect(),
        Damage::Keep(length) => lower_places(length).map(Damage::Keep).collect(),
        Damage::Append(ref bytes) => without_one(bytes).map(Damage::Append).collect(),
        Damage::SayLength => Vec::new(),
    }
}

fn nearer_places(at: At) -> impl Iterator<Item = At> {
    let terms = lower_places(at.term).map(move |term| At { term, ..at });
    let blocks = lower_places(at.block).map(move |block| At { block, ..at });
    let postings = lower_places(at.posting).map(move |posting| At { posting, ..at });
    terms.chain(blocks).chain(postings)
}

fn lower_places(place: usize) -> impl Iterator<Item = usize> {
    lower(place as u32, 0).map(|place| place as usize)
}
