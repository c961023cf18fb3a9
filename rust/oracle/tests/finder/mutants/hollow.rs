//! Document 01's hollow versions, and errors in what is written where.

use super::Around;
use oracle::compare::oracle;
use oracle::judge::judge_image;
use oracle::outcome::{Outcome, Refusal};
use oracle::query::Query;
use oracle::rules::DOCUMENT_01;
use oracle::sheet::judge_sheet;

pub const MUTANTS: &[(&str, Around)] = &[
    ("everything is refused", |_, _, _| Err(Refusal { number: 1, place: 0 })),
    ("every query stops at place 0", |image, sheet, row| rewrite(image, sheet, row, |_, _, stretch| stretch.fill(0))),
    ("one fixed row", |image, sheet, row| {
        rewrite(image, sheet, row, |_, _, stretch| stretch[1..5].copy_from_slice(&[1, 2, 0, 1]))
    }),
    ("nothing is filled", |image, sheet, row| oracle(image, sheet, &mut row.to_vec())),
    ("nothing is filled, and said so", |image, sheet, row| oracle(image, sheet, &mut row.to_vec()).map(|_| 0)),
    ("only the first query is answered", |image, sheet, row| {
        rewrite(image, sheet, row, |query, _, stretch| {
            if query > 0 {
                stretch.fill(0);
            }
        })
    }),
    ("the postings scored are invented", |image, sheet, row| {
        rewrite(image, sheet, row, |_, query, stretch| {
            stretch[2] = query.budget.min(u64::from(stretch[0])) as u32;
        })
    }),
    ("later queries are written one number late", |image, sheet, row| {
        rewrite(image, sheet, row, |query, _, stretch| {
            if query > 0 {
                stretch.rotate_right(1);
            }
        })
    }),
    ("a repeated term counts once", |image, sheet, row| match oracle(image, sheet, row) {
        Ok(_) => oracle(image, &without_repeats(sheet), row),
        refused => refused,
    }),
    ("the number past the last stretch is cleared", |image, sheet, row| {
        let outcome = oracle(image, sheet, row);
        if let Some(past) = outcome.ok().and_then(|count| row.get_mut(count)) {
            *past = 0;
        }
        outcome
    }),
    ("a refusal clears the row", |image, sheet, row| oracle(image, sheet, row).inspect_err(|_| row.fill(0))),
    ("the count is of queries", |image, sheet, row| oracle(image, sheet, row).map(|_| sheet[0] as usize)),
];

/// A sound sheet, with only the first mention of each term in a query.
fn without_repeats(sheet: &[u32]) -> Vec<u32> {
    let mut numbers = vec![sheet[0]];
    let mut rest = &sheet[1..];
    while let [mode, k, budget, q, pairs @ ..] = rest {
        let (pairs, after) = pairs.split_at(2 * *q as usize);
        let mut kept: Vec<&[u32]> = Vec::new();
        for pair in pairs.chunks_exact(2) {
            if kept.iter().all(|other| other[0] != pair[0]) {
                kept.push(pair);
            }
        }
        numbers.extend([*mode, *k, *budget, kept.len() as u32]);
        numbers.extend(kept.concat());
        rest = after;
    }
    numbers
}

/// The oracle's answer with each query's stretch changed afterwards.
fn rewrite(image: &[u8], sheet: &[u32], row: &mut [u32], change: fn(usize, &Query, &mut [u32])) -> Outcome {
    let count = oracle(image, sheet, row)?;
    let terms = judge_image(image, &DOCUMENT_01.image)?.lists.len();
    let mut start = 0;
    for (at, query) in judge_sheet(sheet, terms, &DOCUMENT_01.sheet)?.iter().enumerate() {
        let end = start + 3 + 2 * query.k;
        change(at, query, &mut row[start..end]);
        start = end;
    }
    Ok(count)
}
