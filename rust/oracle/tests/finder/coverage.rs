//! What the random cases hold: each kind of image, sheet and outcome that the comparison is meant to meet, it meets
//! often.

use crate::tested::{first_seed, show};
use oracle::cases::Case;
use oracle::compare::{Lent, Said, oracle};
use oracle::outcome::Refusal;
use oracle::write::{BlockDraft, QueryDraft};

const CASES: u64 = 10_000;
/// Each kind is met at least so often in them.
const LEAST: usize = 10;

/// A case and what the oracle says of it.
struct Seen {
    case: Case,
    said: Said,
}

type Kind = (&'static str, fn(&Seen) -> bool);

const KINDS: &[Kind] = &[
    ("a list of many blocks", |seen| seen.case.image.lists.iter().any(|list| list.blocks.len() > 20)),
    ("a block in the middle of a byte", |seen| seen.any_block(|block| block.bits() % 8 != 0)),
    ("a block of 128 postings", |seen| seen.any_block(|block| block.postings.len() == 128)),
    ("a block of 1 posting", |seen| seen.any_block(|block| block.postings.len() == 1)),
    ("w 0", |seen| seen.any_block(|block| block.width == 0)),
    ("w 24", |seen| seen.any_block(|block| block.width == 24)),
    ("an empty list", |seen| seen.done() && seen.case.image.lists.iter().any(|list| list.blocks.is_empty())),
    ("no term", |seen| seen.case.image.lists.is_empty()),
    ("no document", |seen| seen.case.image.documents == 0),
    ("thousands of documents", |seen| seen.case.image.documents > 5_000),
    ("k 64", |seen| seen.any_query(|query| query.k == 64)),
    ("q 16", |seen| seen.any_query(|query| query.mentions.len() == 16)),
    ("weight 255", |seen| seen.any_query(|query| query.mentions.iter().any(|mention| mention.1 == 255))),
    ("64 queries", |seen| seen.done() && seen.case.sheet.queries.len() == 64),
    ("plain, stopped", |seen| seen.any_place(0, |place, documents| place < documents)),
    ("plain, finished", |seen| seen.any_place(0, |place, documents| place == documents)),
    ("pruned, stopped", |seen| seen.any_place(1, |place, documents| place < documents)),
    ("pruned, finished", |seen| seen.any_place(1, |place, documents| place == documents)),
    ("all terms, stopped", |seen| seen.any_place(2, |place, documents| place < documents)),
    ("all terms, finished", |seen| seen.any_place(2, |place, documents| place == documents)),
    ("a repeated term", |seen| {
        seen.any_query(|query| {
            let mut terms: Vec<u32> = query.mentions.iter().map(|mention| mention.0).collect();
            terms.sort_unstable();
            terms.windows(2).any(|pair| pair[0] == pair[1])
        })
    }),
];

impl Seen {
    fn done(&self) -> bool {
        self.said.outcome.is_ok()
    }

    fn any_block(&self, kind: fn(&BlockDraft) -> bool) -> bool {
        self.done() && self.case.image.lists.iter().flat_map(|list| &list.blocks).any(kind)
    }

    fn any_query(&self, kind: fn(&QueryDraft) -> bool) -> bool {
        self.done() && self.case.sheet.queries.iter().any(kind)
    }

    /// Whether a query of this mode, with a budget above any q, has a place of this kind.
    fn any_place(&self, mode: u32, kind: fn(u32, u32) -> bool) -> bool {
        let mut start = 0;
        self.done()
            && self.case.sheet.queries.iter().any(|query| {
                let place = self.said.row()[start];
                start += 3 + 2 * query.k as usize;
                query.mode == mode && query.budget > 16 && kind(place, self.case.image.documents)
            })
    }

    /// Whether this refusal stands at the first, a middle or the last of at least three queries.
    fn refused_at(&self, number: u32, part: usize) -> bool {
        let last = self.case.sheet.queries.len().saturating_sub(1) as u64;
        let parts = |place| [place == 0, 0 < place && place < last, place == last];
        let outcome = self.said.outcome;
        outcome.is_err_and(|refusal: Refusal| last >= 2 && refusal.number == number && parts(refusal.place)[part])
    }
}

#[test]
fn every_kind_is_met() {
    let first = first_seed(0);
    let mut met = vec![0; KINDS.len()];
    let mut refused = [[0; 3]; 6];
    for seed in first..first + CASES {
        let case = Case::from_seed(seed);
        let seen = Seen { said: Lent::new(&case).ask(&oracle), case };
        for (count, (_, kind)) in met.iter_mut().zip(KINDS) {
            *count += usize::from(kind(&seen));
        }
        for (number, parts) in (9..=14).zip(&mut refused) {
            for (part, count) in parts.iter_mut().enumerate() {
                *count += usize::from(seen.refused_at(number, part));
            }
        }
    }
    for (count, (name, _)) in met.iter().zip(KINDS) {
        show(&format!("met {count} times in {CASES} cases: {name}"));
    }
    show(&format!("refused 9 to 14 at the first, a middle, the last query: {refused:?}"));
    assert!(met.iter().chain(refused.as_flattened()).all(|&count| count >= LEAST), "a kind is hardly met");
}
