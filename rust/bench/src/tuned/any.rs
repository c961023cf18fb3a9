//! Modes 0 and 1, and mode 2 with one mention, which is mode 0's. Mentions are numbered by falling ceiling, so that
//! those set aside are the last; the others are merged. A document whose sum over the merged ones stays at the limit is
//! dropped before any look-up.

use super::judge::Judged;
use super::list::{List, Seeker};
use super::merge::{Merge, Tally};
use super::table::Table;
use crate::sheet::Query;
use std::cmp::Reverse;

/// The first `merged` mentions are in the merge, the others up to `q` are looked up.
struct Mentions<'a> {
    q: usize,
    merged: usize,
    weights: [u32; 16],
    seekers: [Option<Seeker<'a>>; 16],
    /// The sum of a mention's ceiling and of all lower ones: P(q - number).
    bounds: [u32; 17],
}

/// Fills the query's stretch.
pub fn any_term<'a>(image: Judged<'a>, query: &Query, merge: &mut Merge<'a>, stretch: &mut [u32]) {
    let mut mentions = Mentions::new(image, query, merge);
    let mut table = Table::new(query.k);
    let mut tally = Tally { document: u32::MAX, sum: 0, scored: 0 };
    if query.mode == 1 {
        mentions.set_aside(merge, 0);
    }
    let q = query.pairs.len() as u64;
    let place = loop {
        let Some(document) = merge.document() else {
            break image.header().documents;
        };
        if tally.scored + q > query.budget {
            break document;
        }
        let bar = table.bar();
        let limit = bar - mentions.bounds[mentions.merged];
        tally.sum = 0;
        merge.run(&mut tally, limit, query.budget + 1 - q);
        merge.finish(&mut tally);
        if tally.sum > limit && mentions.look_up(&mut tally, bar) {
            table.enter(tally.document, tally.sum);
            if query.mode == 1 {
                mentions.set_aside(merge, table.bar());
            }
        }
    };
    table.fill(stretch, place, tally.scored);
}

impl<'a> Mentions<'a> {
    /// All mentions are in the merge.
    fn new(image: Judged<'a>, query: &Query, merge: &mut Merge<'a>) -> Mentions<'a> {
        let q = query.pairs.len();
        let ceiling = |[term, weight]: [u32; 2]| weight * image.entry(term).largest;
        let mut order: Vec<usize> = (0..q).collect();
        order.sort_unstable_by_key(|&place| Reverse((ceiling(query.pairs[place]), place)));
        let mut mentions = Mentions { q, merged: q, weights: [0; 16], seekers: [None; 16], bounds: [0; 17] };
        for (number, &place) in order.iter().enumerate().rev() {
            let pair @ [term, weight] = query.pairs[place];
            mentions.weights[number] = weight;
            mentions.bounds[number] = mentions.bounds[number + 1] + ceiling(pair);
            merge.put(number, List::new(image, term), weight);
        }
        merge.play(q);
        mentions
    }

    /// Takes out of the merge what the bar allows.
    fn set_aside(&mut self, merge: &mut Merge<'a>, bar: u32) {
        let before = self.merged;
        while self.merged > 0 && self.bounds[self.merged - 1] <= bar {
            self.merged -= 1;
            self.seekers[self.merged] = merge.leave(self.merged);
        }
        if self.merged < before {
            merge.play(self.merged);
        }
    }

    /// Looks the document up in the lists set aside. False if it is dropped, or not above the bar in the end.
    #[inline(always)]
    fn look_up(&mut self, tally: &mut Tally, bar: u32) -> bool {
        for number in self.merged..self.q {
            if tally.sum + self.bounds[number] <= bar {
                return false;
            }
            if let Some(seeker) = &mut self.seekers[number] {
                let impact = seeker.seek(tally.document);
                tally.sum += self.weights[number] * impact;
                tally.scored += u64::from(impact != 0);
            }
        }
        tally.sum > bar
    }
}
