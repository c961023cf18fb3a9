//! P1 to P12, by the values of document 01.

use crate::tested::{IMAGE_I, fills, refuses};
use oracle::index::Posting;
use oracle::write::{ImageDraft, cut};

const P1: [u32; 7] = [1, 1, 1, 100, 1, 0, 3];

/// P1's sheet but for one number.
fn p1_but(at: usize, number: u32) -> [u32; 7] {
    let mut sheet = P1;
    sheet[at] = number;
    sheet
}

/// An image of these lists of documents and impacts, in full blocks.
fn image(documents: u32, lists: &[&[(u32, u32)]]) -> Vec<u8> {
    let postings = |list: &[(u32, u32)]| -> Vec<Posting> {
        list.iter().map(|&(document, impact)| Posting { document, impact }).collect()
    };
    let lists = lists.iter().map(|list| cut(&postings(list), || 128)).collect();
    ImageDraft { documents, lists }.bytes()
}

/// Lists A and B of document 01.
fn lists_a_and_b() -> Vec<u8> {
    image(20, &[&[(3, 4), (5, 2), (9, 4)], &[(5, 9), (12, 9)]])
}

#[test]
fn image_i_is_what_the_writer_writes() {
    assert_eq!(image(10, &[&[(2, 5), (7, 9)]]), IMAGE_I);
}

#[test]
fn p1() {
    fills(&IMAGE_I, &P1, &[10, 1, 2, 7, 27]);
}

#[test]
fn p2_and_p3_budgets_1_and_0() {
    fills(&IMAGE_I, &p1_but(3, 1), &[7, 1, 1, 2, 15]);
    fills(&IMAGE_I, &p1_but(3, 0), &[2, 0, 0, 0, 0]);
}

#[test]
fn p4_k_65_or_0() {
    refuses(&IMAGE_I, &p1_but(2, 65), 11, 0);
    refuses(&IMAGE_I, &p1_but(2, 0), 11, 0);
}

#[test]
fn p5_weight_256() {
    refuses(&IMAGE_I, &p1_but(6, 256), 14, 0);
}

#[test]
fn p6_term_1() {
    refuses(&IMAGE_I, &p1_but(5, 1), 13, 0);
}

#[test]
fn p7_last_byte_41() {
    let mut image = IMAGE_I;
    image[24] = 0x41;
    refuses(&image, &P1, 8, 1);
}

#[test]
fn p8_byte_15_is_0a() {
    let mut image = IMAGE_I;
    image[15] = 0x0A;
    refuses(&image, &P1, 7, 0);
}

#[test]
fn p9_p10_p11_lists_a_and_b_in_each_mode() {
    let sheet = |mode| [1, mode, 1, 1_000, 2, 0, 1, 1, 1];
    fills(&lists_a_and_b(), &sheet(1), &[20, 1, 4, 5, 11]);
    fills(&lists_a_and_b(), &sheet(0), &[20, 1, 5, 5, 11]);
    fills(&lists_a_and_b(), &sheet(2), &[20, 1, 2, 5, 11]);
}

#[test]
fn p12_a_finished_and_a_stopped_query() {
    let image = image(20, &[&[(4, 7), (6, 7)]]);
    fills(&image, &[1, 1, 1, 1, 1, 0, 1], &[20, 1, 1, 4, 7]);
    fills(&image, &[1, 0, 1, 1, 1, 0, 1], &[6, 1, 1, 4, 7]);
}
