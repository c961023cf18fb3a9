//! Random sound images: dense and sparse lists, empty ones, many blocks, few documents and many; ties everywhere.

use super::{Random, draft_list};
use crate::index::Posting;
use crate::write::ImageDraft;

/// An image of any shape.
pub fn draft_image(random: &mut Random) -> ImageDraft {
    let (documents, terms) = match random.below(100) {
        0..3 => (random.pick(&[0, 1, 2, 9]), 0),
        3..6 => (0, random.between(1, 4)),
        6..40 => (random.between(1, 12), random.between(1, 4)),
        40..75 => (random.between(5, 60), random.between(1, 8)),
        75..92 => (random.between(60, 300), random.between(1, 6)),
        92..97 => (random.between(300, 1_500), random.between(1, 3)),
        97 => (random.between(1_500, 20_000), random.between(1, 4)),
        _ => (random.between(1, 30), random.between(40, 400)),
    };
    draft_image_of(random, documents, terms)
}

/// An image of so many documents and terms.
pub fn draft_image_of(random: &mut Random, documents: u32, terms: u32) -> ImageDraft {
    let all_empty = random.one_in(50);
    let shared = impacts(random);
    let mut lists: Vec<Vec<u32>> = Vec::new();
    let mut drafts = Vec::new();
    for _ in 0..terms {
        let list = if documents == 0 || all_empty { Vec::new() } else { list_documents(random, documents, &lists) };
        let impacts = if random.one_in(3) { impacts(random) } else { shared.clone() };
        let postings: Vec<Posting> =
            list.iter().map(|&document| Posting { document, impact: random.pick(&impacts) }).collect();
        drafts.push(draft_list(random, &postings));
        lists.push(list);
    }
    ImageDraft { documents, lists: drafts }
}

/// The impacts to choose from: mostly few, so that scores tie.
fn impacts(random: &mut Random) -> Vec<u32> {
    match random.below(6) {
        0 => vec![random.between(1, 255)],
        1 => vec![random.between(1, 5), random.between(1, 5)],
        2 => vec![random.between(1, 255), random.between(1, 255), random.between(1, 255)],
        3 => vec![1, 255],
        4 => [vec![random.between(1, 4); 9], vec![random.between(40, 255)]].concat(),
        _ => (1..=255).collect(),
    }
}

/// The documents of one list, rising.
fn list_documents(random: &mut Random, documents: u32, before: &[Vec<u32>]) -> Vec<u32> {
    let sparse = documents > 1_500;
    let mut list = match random.below(14) {
        0 => return Vec::new(),
        1 if !before.is_empty() => return before[random.below(before.len())].clone(),
        2 | 3 => few(random, documents, 3),
        _ if sparse => few(random, documents, 20),
        4 => (0..documents).collect(),
        5 | 6 => runs(random, documents),
        _ => {
            let share = random.pick(&[2, 10, 30, 50, 70, 95]);
            (0..documents).filter(|_| random.below(100) < share).collect()
        }
    };
    list.extend([0, documents - 1].iter().filter(|_| random.one_in(4)));
    list.sort_unstable();
    list.dedup();
    list
}

fn few(random: &mut Random, documents: u32, most: u32) -> Vec<u32> {
    (0..random.between(1, most)).map(|_| random.below(documents as usize) as u32).collect()
}

/// Runs of neighbouring documents, whose gaps are 0, with holes between.
fn runs(random: &mut Random, documents: u32) -> Vec<u32> {
    let mut list = Vec::new();
    let mut next = random.between(0, 9);
    while next < documents {
        let end = documents.min(next + random.between(1, 40));
        list.extend(next..end);
        next = end + random.between(1, 60);
    }
    list
}
