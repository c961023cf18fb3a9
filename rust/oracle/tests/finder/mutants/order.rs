//! Errors in the order of refusals: each finds a true fault, but not the first.

use super::Around;
use oracle::call::call;
use oracle::compare::oracle;
use oracle::judge::{Image, judge_image};
use oracle::outcome::{Outcome, Refusal};
use oracle::rules::DOCUMENT_01;

pub const MUTANTS: &[(&str, Around)] = &[
    ("the sheet's first number is judged before the image", |image, sheet, row| match sheet {
        [1..=64, ..] => oracle(image, sheet, row),
        _ => Err(Refusal { number: 9, place: 0 }),
    }),
    ("the row's length is judged before the sheet", |image, sheet, row| {
        match (judge_image(image, &DOCUMENT_01.image), row.len()) {
            (Ok(_), 0..5) => Err(Refusal { number: 15, place: 5 }),
            _ => oracle(image, sheet, row),
        }
    }),
    ("the directory is judged before the blocks", directory_first),
    ("a block's 7 is judged after all blocks of its list", summaries_last),
    ("the bits left are judged before a list's largest impact", |image, sheet, row| {
        let mut lax = DOCUMENT_01;
        lax.image.list_largest_is_true = |_, _| true;
        let later = call(image, sheet, &mut row.to_vec(), &lax);
        later_fault(oracle(image, sheet, row), 7, later, |later| later.number == 8)
    }),
    ("a query's numbers are judged before one is found missing", |image, sheet, row| {
        let padded = [sheet, &[0; 36]].concat();
        let first = oracle(image, sheet, row);
        let later = oracle(image, &padded, &mut row.to_vec());
        later_fault(first, 9, later, |later| (10..=14).contains(&later.number))
    }),
    ("numbers left over are found before a query's fault", |image, sheet, row| match oracle(image, sheet, row) {
        Err(Refusal { number: 10..=14, .. }) if has_numbers_left_over(sheet) => {
            Err(Refusal { number: 9, place: u64::from(sheet[0]) })
        }
        outcome => outcome,
    }),
];

/// The later fault in the stead of the first, where the first has this number.
fn later_fault(first: Outcome, number: u32, later: Outcome, is_meant: fn(&Refusal) -> bool) -> Outcome {
    match (first, later) {
        (Err(first), Err(later)) if first.number == number && is_meant(&later) => Err(later),
        _ => first,
    }
}

fn directory_first(bytes: &[u8], sheet: &[u32], row: &mut [u32]) -> Outcome {
    let outcome = oracle(bytes, sheet, row);
    let image = Image { bytes, rules: &DOCUMENT_01.image };
    let documents = image.field(16, 24);
    let more_than_documents = |term: &u64| image.field(64 + 64 * *term as usize + 32, 24) > documents;
    match outcome {
        Err(Refusal { number: 5..=7, place }) => {
            let later = (place..u64::from(image.field(4, 12))).find(more_than_documents);
            later.map_or(outcome, |place| Err(Refusal { number: 4, place }))
        }
        _ => outcome,
    }
}

fn summaries_last(image: &[u8], sheet: &[u32], row: &mut [u32]) -> Outcome {
    let mut lax = DOCUMENT_01;
    lax.image.last_is_true = |_, _| true;
    lax.image.block_largest_is_true = |_, _| true;
    let first = oracle(image, sheet, row);
    match (first, call(image, sheet, &mut row.to_vec(), &lax)) {
        (Err(first), Err(later)) if first.number == 7 && later.place == first.place => Err(later),
        _ => first,
    }
}

fn has_numbers_left_over(sheet: &[u32]) -> bool {
    let mut end = 1;
    for _ in 0..sheet[0] {
        let Some(&q) = sheet.get(end + 3) else {
            return false;
        };
        end += 4 + 2 * q as usize;
    }
    end < sheet.len()
}
