//! The face: what is asked reaches the library unchanged, what it says comes back whole, and a refusal is an error
//! value.

use clipfinder::{Answer, Mode, Query, Refusal, Row, Sheet, answer_into, ask};
use std::error::Error;

/// One term and ten clips; the term's list holds clip 2 with impact 5 and clip 7 with impact 9.
const IMAGE: [u8; 25] = [
    0x10, 0x01, 0x00, 0x00, 0x0A, 0x00, 0x00, 0x19, 0x00, 0x00, 0x00, 0x80, 0x00, 0x00, 0x02, 0x09, 0x02, 0x30, 0x90,
    0x00, 0x00, 0x74, 0x0B, 0x02, 0x40,
];

fn refusal_of(numbers: &[u32]) -> Refusal {
    ask(&IMAGE, &Sheet::from_numbers(numbers.to_vec())).expect_err("the sheet is at fault")
}

#[test]
fn a_sheet_is_the_numbers_that_the_library_reads() {
    let mut sheet = Sheet::new();
    assert_eq!(sheet.numbers(), [0]);
    sheet.push(&Query::new(Mode::Pruned, 1, 100).mention(0, 3));
    sheet.push(&Query::new(Mode::All, 2, 7).mention(4, 5).mention(4, 6));
    assert_eq!(sheet.numbers(), [2, 1, 1, 100, 1, 0, 3, 2, 2, 7, 2, 4, 5, 4, 6]);
    let mut from_nothing = Sheet::from_numbers(Vec::new());
    from_nothing.push(&Query::new(Mode::Plain, 1, 0));
    assert_eq!(from_nothing.numbers(), [1, 0, 1, 0, 0]);
}

#[test]
fn each_query_gets_its_answer() {
    let mut sheet = Sheet::new();
    sheet.push(&Query::new(Mode::Pruned, 1, 100).mention(0, 3));
    sheet.push(&Query::new(Mode::Plain, 3, 1).mention(0, 3));
    sheet.push(&Query::new(Mode::All, 64, 0).mention(0, 255));
    let rows = |rows: &[(u32, u32)]| rows.iter().map(|&(document, score)| Row { document, score }).collect();
    let expected = [
        Answer { place: 10, finished: true, rows: rows(&[(7, 27)]), postings_scored: 2 },
        Answer { place: 7, finished: false, rows: rows(&[(2, 15)]), postings_scored: 1 },
        Answer { place: 2, finished: false, rows: rows(&[]), postings_scored: 0 },
    ];
    assert_eq!(ask(&IMAGE, &sheet).expect("image and sheet are sound"), expected);
}

#[test]
fn a_faulty_sheet_is_refused_by_the_library_and_not_by_the_face() {
    let refusal = |number, place| Refusal { number, place };
    assert_eq!(refusal_of(&[]), refusal(9, 0));
    assert_eq!(refusal_of(&[65]), refusal(9, 0));
    assert_eq!(refusal_of(&[1, 3, 1, 100, 1, 0, 3]), refusal(10, 0));
    assert_eq!(refusal_of(&[1, 1, u32::MAX, 100, 1, 0, 3]), refusal(11, 0));
    assert_eq!(refusal_of(&[1, 1, 1, 100, u32::MAX, 0, 3]), refusal(12, 0));
    assert_eq!(refusal_of(&[1, 1, 1, 100, 1, 0, 3, 0]), refusal(9, 1));
    assert_eq!(refusal_of(&[2, 1, 1, 100, 1, 0, 3, 1, 1, 100, 1, 0, 256]), refusal(14, 1));
    assert_eq!(ask(&[], &Sheet::new()), Err(refusal(1, 0)));
    assert_eq!(ask(&IMAGE, &Sheet::default()), Err(refusal(9, 0)));
}

#[test]
fn a_lent_row_is_filled_or_left_alone() {
    let sheet = [1, 1, 1, 100, 1, 0, 3];
    let mut row = [8; 6];
    assert_eq!(answer_into(&IMAGE, &sheet, &mut row), Ok(5));
    assert_eq!(row, [10, 1, 2, 7, 27, 8]);
    let mut short = [8; 4];
    assert_eq!(answer_into(&IMAGE, &sheet, &mut short), Err(Refusal { number: 15, place: 5 }));
    assert_eq!(short, [8; 4]);
}

#[test]
fn a_refusal_says_in_words_what_is_wrong_and_where() {
    let words = |number, place| Refusal { number, place }.to_string();
    assert_eq!(
        words(7, 0),
        "refused 7 at term 0: a block's last document or largest impact, or the list's largest impact, is not the true one"
    );
    assert_eq!(words(1, 0), "refused 1 at the image's head: the image is under 8 bytes");
    assert_eq!(
        words(8, 1),
        "refused 8 after all 1 terms: the bits left after the last list are more than 7 or not all zero"
    );
    assert_eq!(words(11, 3), "refused 11 at query 3: k is not 1 to 64");
    assert_eq!(words(15, 131), "refused 15: the answer row is too short, 131 numbers are needed");
    let meanings: Vec<&str> = (1..=16).map(|number| Refusal { number, place: 0 }.meaning()).collect();
    assert!(meanings.iter().enumerate().all(|(at, meaning)| !meanings[..at].contains(meaning)));
    let error: Box<dyn Error> = Box::new(Refusal { number: 13, place: 2 });
    assert_eq!(error.to_string(), "refused 13 at query 2: a term is not in the index");
}
