//! The cases that are a step smaller than a case: without a damage, a query, a mention, a term or some postings, or
//! with a lower number somewhere.

mod damages;
mod images;
mod sheets;

use crate::cases::Case;

/// Smaller cases, large steps first.
pub fn smaller(case: &Case) -> impl Iterator<Item = Case> {
    let damages = damages::smaller_damages(&case.damages);
    let damages = damages.map(|damages| with(case, |case| case.damages = damages));
    let sheets = sheets::smaller_sheets(&case.sheet).map(|sheet| with(case, |case| case.sheet = sheet));
    let terms = (0..case.image.lists.len()).map(|term| with(case, |case| drop_term(case, term)));
    let images = images::smaller_images(&case.image).map(|image| with(case, |case| case.image = image));
    let exact = (case.spare != 0).then(|| with(case, |case| case.spare = 0));
    damages.chain(sheets).chain(terms).chain(images).chain(exact)
}

/// A copy, changed.
fn with<T: Clone>(value: &T, change: impl FnOnce(&mut T)) -> T {
    let mut copy = value.clone();
    change(&mut copy);
    copy
}

fn without_one<T: Clone>(all: &[T]) -> impl Iterator<Item = Vec<T>> {
    (0..all.len()).map(|i| [&all[..i], &all[i + 1..]].concat())
}

/// The values to try in a number's stead.
fn lower(number: u32, least: u32) -> impl Iterator<Item = u32> {
    let tries = [least, number / 2, number.saturating_sub(1)];
    tries.into_iter().filter(move |&lower| least <= lower && lower < number)
}

/// Drops a term and its mentions, and moves later terms down.
fn drop_term(case: &mut Case, term: usize) {
    case.image.lists.remove(term);
    for query in &mut case.sheet.queries {
        let mentions = query.mentions.len();
        query.mentions.retain(|mention| mention.0 as usize != term);
        query.terms = query.terms.saturating_sub((mentions - query.mentions.len()) as u32);
        for mention in query.mentions.iter_mut().filter(|mention| mention.0 as usize > term) {
            mention.0 -= 1;
        }
    }
}
