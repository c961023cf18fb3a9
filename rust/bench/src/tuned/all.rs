//! Mode 2 with two mentions or more: the shortest list leads, block by block, and its documents are looked up in the
//! others, shorter ones first.

use super::judge::Judged;
use super::list::{List, Scan, Seeker};
use super::table::Table;
use super::unpack::BLOCK;
use crate::sheet::Query;

/// A list with fewer postings than so many times the documents looked up is unpacked.
const DENSE: u64 = 32;

enum Lookup<'a> {
    Dense(Box<Scan<'a>>),
    Sparse(Seeker<'a>),
}

/// What looking a document up gives: its impact, the lowest other document from there on, or the list's end.
enum Found {
    Impact(u32),
    Later(u32),
    Ended,
}

struct Meeting<'a> {
    others: Vec<(Lookup<'a>, u32)>,
    budget: u64,
    q: u64,
    scored: u64,
    table: Table,
}

/// Fills the query's stretch.
pub fn all_terms(image: Judged, query: &Query, stretch: &mut [u32]) {
    let mut lists: Vec<(List, u32)> =
        query.pairs.iter().map(|&[term, weight]| (List::new(image, term), weight)).collect();
    lists.sort_unstable_by_key(|(list, _)| list.postings_left());
    let (lead, weight) = lists[0];
    let documents = image.header().documents;
    let others = lookups(lead, &lists[1..], documents);
    let q = lists.len() as u64;
    let mut meeting = Meeting { others, budget: query.budget, q, scored: 0, table: Table::new(query.k) };
    let place = meeting.walk(lead, weight).unwrap_or(documents);
    meeting.table.fill(stretch, place, meeting.scored);
}

/// The other lists with their weights, each for the documents that lists before it may leave: as many as if all were
/// spread evenly.
fn lookups<'a>(lead: List<'a>, others: &[(List<'a>, u32)], documents: u32) -> Vec<(Lookup<'a>, u32)> {
    let mut sought = u64::from(lead.postings_left());
    let mut lookups = Vec::with_capacity(others.len());
    for &(list, weight) in others {
        let postings = u64::from(list.postings_left());
        let lookup = match postings < DENSE * sought {
            true => Lookup::Dense(Box::new(Scan::new(list))),
            false => Lookup::Sparse(Seeker::new(list)),
        };
        lookups.push((lookup, weight));
        sought = sought * postings / u64::from(documents.max(1));
    }
    lookups
}

impl Meeting<'_> {
    /// Goes through the leading list; gives the document where the budget stops it, if it does.
    fn walk(&mut self, mut lead: List, weight: u32) -> Option<u32> {
        let mut postings = [0; BLOCK];
        let mut from = 0;
        while lead.turn_to(from) {
            lead.unpack(&mut postings);
            for &posting in &postings[..lead.block_left()] {
                let document = posting >> 8;
                if document < from {
                    continue;
                }
                match self.look_up(document, weight * (posting & 0xFF)) {
                    Found::Later(later) => from = later,
                    Found::Ended => return None,
                    Found::Impact(sum) => {
                        if self.scored + self.q > self.budget {
                            return Some(document);
                        }
                        self.scored += self.q;
                        if sum > self.table.bar() {
                            self.table.enter(document, sum);
                        }
                    }
                }
            }
            from = from.max(lead.end());
        }
        None
    }

    /// The document's whole sum, or what the first list that lacks it says.
    #[inline(always)]
    fn look_up(&mut self, document: u32, mut sum: u32) -> Found {
        for (lookup, weight) in &mut self.others {
            match lookup.seek(document) {
                Found::Impact(impact) => sum += *weight * impact,
                other => return other,
            }
        }
        Found::Impact(sum)
    }
}

impl Lookup<'_> {
    #[inline(always)]
    fn seek(&mut self, document: u32) -> Found {
        match self {
            Lookup::Dense(scan) => match scan.seek(document) {
                Some(posting) if posting >> 8 == document => Found::Impact(posting & 0xFF),
                Some(posting) => Found::Later(posting >> 8),
                None => Found::Ended,
            },
            Lookup::Sparse(seeker) => match (seeker.seek(document), seeker.passed()) {
                (0, None) => Found::Ended,
                (0, Some(later)) => Found::Later(later),
                (impact, _) => Found::Impact(impact),
            },
        }
    }
}
