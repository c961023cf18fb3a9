//! Document 01's "run only" examples, and the edges between one refusal and the next.

use crate::tested::{IMAGE_I, fills, refuses, refuses_with_room};
use oracle::index::Posting;
use oracle::write::{BlockDraft, ImageDraft, ListDraft, cut};

/// A sound sheet of one query on image I.
const SHEET: [u32; 7] = [1, 1, 1, 100, 1, 0, 3];

fn postings(list: &[(u32, u32)]) -> Vec<Posting> {
    list.iter().map(|&(document, impact)| Posting { document, impact }).collect()
}

fn image(documents: u32, lists: Vec<ListDraft>) -> Vec<u8> {
    ImageDraft { documents, lists }.bytes()
}

#[test]
fn k_64_fills_131_numbers() {
    let mut numbers = vec![10, 2, 2, 7, 27, 2, 15];
    numbers.resize(131, 0);
    fills(&IMAGE_I, &[1, 1, 64, 100, 1, 0, 3], &numbers);
}

#[test]
fn sixteen_mentions_and_seventeen() {
    let sheet = |q: u32| [vec![1, 0, 1, 100, q], [0, 1].repeat(q as usize)].concat();
    fills(&IMAGE_I, &sheet(16), &[10, 1, 32, 7, 144]);
    refuses(&IMAGE_I, &sheet(17), 12, 0);
    refuses(&IMAGE_I, &sheet(0), 12, 0);
}

#[test]
fn queries_0_1_64_and_65() {
    let sheet = |queries: usize| [vec![queries as u32], SHEET[1..].repeat(queries)].concat();
    refuses(&IMAGE_I, &sheet(0), 9, 0);
    refuses(&IMAGE_I, &sheet(65), 9, 0);
    fills(&IMAGE_I, &sheet(64), &[10, 1, 2, 7, 27].repeat(64));
    refuses(&IMAGE_I, &[], 9, 0);
}

#[test]
fn no_documents_and_no_terms() {
    let empty_list = image(0, vec![ListDraft::default()]);
    for mode in 0..3 {
        fills(&empty_list, &[1, mode, 1, 0, 1, 0, 1], &[0, 0, 0, 0, 0]);
    }
    let no_terms = image(5, vec![]);
    refuses(&no_terms, &SHEET, 13, 0);
    refuses(&no_terms, &[1, 1, 1, 100, 17, 0, 3], 12, 0);
    refuses(&no_terms, &[1, 1, 1, 100, 2, 0, 3], 9, 0);
}

#[test]
fn an_empty_list_beside_one_with_postings() {
    let image = image(20, vec![ListDraft::default(), cut(&postings(&[(4, 7)]), || 1), ListDraft::default()]);
    for (mode, numbers) in [(0, [20, 1, 1, 4, 7]), (1, [20, 1, 1, 4, 7]), (2, [20, 0, 0, 0, 0])] {
        fills(&image, &[1, mode, 1, 9, 3, 0, 1, 1, 1, 2, 1], &numbers);
    }
    fills(&image, &[1, 1, 1, 2, 3, 0, 1, 1, 1, 2, 1], &[4, 0, 0, 0, 0]);
    fills(&image, &[1, 1, 1, 0, 1, 2, 1], &[20, 0, 0, 0, 0]);
}

#[test]
fn a_repeated_term_counts_each_time() {
    for mode in [0, 2] {
        fills(&IMAGE_I, &[1, mode, 1, 100, 2, 0, 3, 0, 2], &[10, 1, 4, 7, 45]);
    }
    fills(&IMAGE_I, &[1, 0, 1, 3, 2, 0, 3, 0, 2], &[7, 1, 2, 2, 25]);
}

#[test]
fn widths_0_and_24_and_blocks_that_end_at_the_last_bit() {
    let first = BlockDraft { postings: postings(&[(0, 1), (1, 2), (2, 3)]), width: 0 };
    let second = BlockDraft { postings: postings(&[(9, 4)]), width: 24 };
    let image = image(10, vec![ListDraft { blocks: vec![first, second] }]);
    fills(&image, &[1, 0, 1, 100, 1, 0, 1], &[10, 1, 4, 9, 4]);
    let full = cut(&postings(&[(0, 9), (1, 9), (2, 9), (3, 9), (5, 9)]), || 4);
    let full = ImageDraft { documents: 6, lists: vec![full] };
    assert_eq!(full.lists[0].bits() % 8, 1);
    fills(&full.bytes(), &[1, 2, 1, 100, 1, 0, 1], &[6, 1, 5, 0, 9]);
}

#[test]
fn the_largest_score() {
    let image = image(1, vec![cut(&postings(&[(0, 255)]), || 1)]);
    let sheet = [vec![1, 1, 1, 16, 16], [0, 255].repeat(16)].concat();
    fills(&image, &sheet, &[1, 1, 16, 0, 1_040_400]);
}

#[test]
fn the_image_is_judged_before_the_sheet() {
    let mut version_2 = IMAGE_I;
    version_2[0] = 0x20;
    refuses(&version_2, &[0], 2, 0);
    refuses(&version_2[..8], &SHEET, 2, 0);
    refuses(&version_2[..7], &SHEET, 1, 0);
    refuses(&IMAGE_I[..24], &[], 3, 0);
}

#[test]
fn an_image_longer_than_its_length_field_can_say() {
    let mut bytes = vec![0; 1 << 24];
    bytes[0] = 0x10;
    refuses(&bytes, &SHEET, 3, 0);
}

#[test]
fn all_terms_there_can_be() {
    let bytes = image(3, vec![ListDraft::default(); 4_095]);
    fills(&bytes, &[1, 1, 1, 100, 1, 4_094, 3], &[3, 0, 0, 0, 0]);
    refuses(&bytes, &[1, 1, 1, 100, 1, 4_095, 3], 13, 0);
}

#[test]
fn numbers_missing_and_left_over() {
    refuses(&IMAGE_I, &[1], 9, 0);
    refuses(&IMAGE_I, &[1, 3], 9, 0);
    refuses(&IMAGE_I, &[1, 3, 0, 0], 9, 0);
    refuses(&IMAGE_I, &[1, 3, 0, 0, 0], 10, 0);
    refuses(&IMAGE_I, &[1, 1, 1, 100, 2, 9, 0, 0], 9, 0);
    refuses(&IMAGE_I, &[[3].as_slice(), &SHEET[1..], &SHEET[1..]].concat(), 9, 2);
    refuses(&IMAGE_I, &[&SHEET[..], &[0]].concat(), 9, 1);
    refuses(&IMAGE_I, &[[2].as_slice(), &SHEET[1..], &SHEET[1..], &[7]].concat(), 9, 2);
}

#[test]
fn pair_by_pair_13_before_14() {
    let sheet = |pairs: [u32; 4]| [&[1, 1, 1, 100, 2][..], &pairs].concat();
    refuses(&IMAGE_I, &sheet([1, 0, 0, 1]), 13, 0);
    refuses(&IMAGE_I, &sheet([0, 0, 1, 1]), 14, 0);
    refuses(&IMAGE_I, &sheet([0, 1, 1, 256]), 13, 0);
    refuses(&IMAGE_I, &[[2].as_slice(), &SHEET[1..], &sheet([0, 1, 0, 256])[1..]].concat(), 14, 1);
}

#[test]
fn the_row_is_the_last_to_be_judged() {
    refuses_with_room(&IMAGE_I, &SHEET, 4, 15, 5);
    refuses_with_room(&IMAGE_I, &SHEET, 0, 15, 5);
    refuses_with_room(&IMAGE_I, &[&SHEET[..], &[0]].concat(), 0, 9, 1);
    let many = [vec![64], [1, 64, 0, 1, 0, 1].repeat(64)].concat();
    refuses_with_room(&IMAGE_I, &many, 8_383, 15, 8_384);
}

#[test]
fn budgets_at_the_end_of_32_bits() {
    for budget in [u32::MAX, u32::MAX - 1, u32::MAX - 15] {
        fills(&IMAGE_I, &[1, 0, 1, budget, 1, 0, 3], &[10, 1, 2, 7, 27]);
    }
}
