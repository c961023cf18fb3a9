//! Smaller images: fewer postings and documents, plainer blocks, lower impacts.

use super::{lower, with};
use crate::write::{BlockDraft, ImageDraft, ListDraft, cut, smallest_width};
use std::iter;

pub fn smaller_images(image: &ImageDraft) -> impl Iterator<Item = ImageDraft> {
    let packed = iter::once(with(image, renumber)).filter(move |packed| packed != image);
    let last = image.lists.iter().filter_map(|list| list.blocks.last()).map(BlockDraft::last).max();
    let documents = lower(image.documents, last.map_or(0, |last| last + 1));
    let documents = documents.map(|documents| with(image, |image| image.documents = documents));
    let lists = (0..image.lists.len()).flat_map(move |term| {
        smaller_lists(&image.lists[term]).map(move |list| with(image, |image| image.lists[term] = list))
    });
    packed.chain(documents).chain(lists)
}

/// Takes out the documents that no list holds.
fn renumber(image: &mut ImageDraft) {
    let postings = image.lists.iter().flat_map(ListDraft::postings);
    let mut held: Vec<u32> = postings.map(|posting| posting.document).collect();
    held.sort_unstable();
    held.dedup();
    image.documents = held.len() as u32;
    let blocks = image.lists.iter_mut().flat_map(|list| &mut list.blocks);
    for posting in blocks.flat_map(|block| &mut block.postings) {
        posting.document = held.partition_point(|&document| document < posting.document) as u32;
    }
}

/// Without some neighbouring postings, in full blocks, with the smallest widths, or with a lower impact.
fn smaller_lists(list: &ListDraft) -> impl Iterator<Item = ListDraft> {
    let postings = list.postings().len();
    let lengths = iter::successors(Some(postings), |&length| Some(length / 2)).take_while(|&length| length > 0);
    let fewer = lengths.flat_map(move |length| {
        let starts = (0..postings).step_by(length);
        starts.map(move |start| with(list, |list| drop_postings(list, start, length)))
    });
    let plainer = [cut(&list.postings(), || 128), with(list, |list| refit(list, |_, smallest| smallest))];
    let plainer = plainer.into_iter().filter(move |plainer| plainer.bits() < list.bits());
    let impacts = list.postings().into_iter().enumerate().flat_map(move |(at, posting)| {
        lower(posting.impact, 1).map(move |impact| with(list, |list| set_impact(list, at, impact)))
    });
    fewer.chain(plainer).chain(impacts)
}

fn drop_postings(list: &mut ListDraft, start: usize, length: usize) {
    let mut at = 0..;
    for block in &mut list.blocks {
        block.postings.retain(|_| at.next().is_some_and(|at| at < start || at >= start + length));
    }
    list.blocks.retain(|block| !block.postings.is_empty());
    refit(list, u32::max);
}

/// Gives each block a width made from its own and the smallest that now holds its gaps.
fn refit(list: &mut ListDraft, width: fn(own: u32, smallest: u32) -> u32) {
    let mut previous = -1;
    for block in &mut list.blocks {
        block.width = width(block.width, smallest_width(previous, &block.postings));
        previous = i64::from(block.last());
    }
}

fn set_impact(list: &mut ListDraft, at: usize, impact: u32) {
    let mut postings = list.blocks.iter_mut().flat_map(|block| &mut block.postings);
    if let Some(posting) = postings.nth(at) {
        posting.impact = impact;
    }
}
