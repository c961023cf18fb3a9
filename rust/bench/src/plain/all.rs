//! Mode 2: the shortest list leads, and the others are sought.

use super::cursor::Cursor;
use super::judge::Index;
use super::rows::{Answer, Rows};
use crate::sheet::Query;

pub fn all_terms(index: &Index, query: &Query) -> Answer {
    let mut pairs = query.pairs.to_vec();
    pairs.sort_by_key(|&[term, _]| index.lists[term as usize].postings);
    let mut mentions: Vec<(Cursor, u64)> = pairs
        .iter()
        .map(|&[term, weight]| (Cursor::new(index, &index.lists[term as usize]), u64::from(weight)))
        .collect();
    let q = mentions.len() as u64;
    let mut rows = Rows::new(query.k);
    let mut scored = 0;
    let mut document = 0;
    while let Some(found) = meet(&mut mentions, document) {
        if scored + q > query.budget {
            return Answer { place: found, scored, rows };
        }
        let impact = |cursor: &Cursor| u64::from(cursor.impact_of(found).expect("all lists hold it"));
        rows.add(found, mentions.iter().map(|(cursor, weight)| weight * impact(cursor)).sum());
        scored += q;
        document = found + 1;
    }
    Answer { place: index.documents, scored, rows }
}

/// The first document from `document` on that all lists hold.
fn meet(mentions: &mut [(Cursor, u64)], mut document: u32) -> Option<u32> {
    loop {
        let mut highest = document;
        for (cursor, _) in mentions.iter_mut() {
            cursor.seek(document);
            highest = cursor.current()?.document;
            if highest > document {
                break;
            }
        }
        if highest == document {
            return Some(document);
        }
        document = highest;
    }
}
