//! Modes 0 and 1, a document at a time.

use super::cursor::Cursor;
use super::judge::Index;
use super::rows::{Answer, Rows};
use crate::sheet::Query;

struct Mention<'a> {
    weight: u64,
    ceiling: u64,
    cursor: Cursor<'a>,
}

/// Mode 0: every document that some list holds.
pub fn plain(index: &Index, query: &Query) -> Answer {
    let mut mentions = mentions(index, query);
    let mut rows = Rows::new(query.k);
    let mut scored = 0;
    while let Some(document) = lowest(&mentions) {
        if scored + mentions.len() as u64 > query.budget {
            return Answer { place: document, scored, rows };
        }
        let (sum, cost) = score(&mut mentions, document);
        scored += cost;
        rows.add(document, sum);
    }
    Answer { place: index.documents, scored, rows }
}

/// Mode 1: the mentions below `aside` can't bring a document above the bar by themselves.
pub fn pruned(index: &Index, query: &Query) -> Answer {
    let mut mentions = mentions(index, query);
    mentions.sort_by_key(|mention| mention.ceiling);
    let sums: Vec<u64> = (0..=mentions.len()).map(|i| mentions[..i].iter().map(|m| m.ceiling).sum()).collect();
    let mut rows = Rows::new(query.k);
    let mut scored = 0;
    let mut aside = set_aside(&sums, 0, 0);
    while let Some(document) = lowest(&mentions[aside..]) {
        if scored + mentions.len() as u64 > query.budget {
            return Answer { place: document, scored, rows };
        }
        let (mut sum, mut cost) = score(&mut mentions[aside..], document);
        let bar = rows.bar();
        let mut dropped = false;
        for (i, mention) in mentions[..aside].iter_mut().enumerate().rev() {
            if sum + sums[i + 1] <= bar {
                dropped = true;
                break;
            }
            mention.cursor.seek(document);
            if let Some(impact) = mention.cursor.impact_of(document) {
                sum += mention.weight * u64::from(impact);
                cost += 1;
            }
        }
        scored += cost;
        if !dropped {
            rows.add(document, sum);
            aside = set_aside(&sums, aside, rows.bar());
        }
    }
    Answer { place: index.documents, scored, rows }
}

fn mentions<'a>(index: &Index<'a>, query: &Query) -> Vec<Mention<'a>> {
    let mention = |&[term, weight]: &[u32; 2]| {
        let list = &index.lists[term as usize];
        let weight = u64::from(weight);
        Mention { weight, ceiling: weight * u64::from(list.largest), cursor: Cursor::new(index, list) }
    };
    query.pairs.iter().map(mention).collect()
}

/// The lowest document that a mention is at.
fn lowest(mentions: &[Mention]) -> Option<u32> {
    mentions.iter().filter_map(|mention| mention.cursor.current()).map(|posting| posting.document).min()
}

/// The document's sum over these mentions and the number of them that hold it; they go on.
fn score(mentions: &mut [Mention], document: u32) -> (u64, u64) {
    let (mut sum, mut cost) = (0, 0);
    for mention in mentions {
        if let Some(impact) = mention.cursor.impact_of(document) {
            sum += mention.weight * u64::from(impact);
            cost += 1;
            mention.cursor.advance();
        }
    }
    (sum, cost)
}

/// The largest i, from `aside` on, with P(i) at most the bar.
fn set_aside(sums: &[u64], aside: usize, bar: u64) -> usize {
    (aside..sums.len()).rev().find(|&i| sums[i] <= bar).unwrap_or(aside)
}
