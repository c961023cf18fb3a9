//! The finders under test, and what the tests of values share.

use oracle::cases::Case;
use oracle::compare::{Finder, Lent, Said, Tally, compare_seeds, oracle};
use oracle::outcome::{Outcome, Refusal};
use std::io::Write;

/// The library, through its Rust face.
pub fn library(image: &[u8], sheet: &[u32], row: &mut [u32]) -> Outcome {
    clipfinder::answer_into(image, sheet, row)
        .map_err(|refusal| Refusal { number: refusal.number, place: refusal.place })
}

/// Image I of document 01.
pub const IMAGE_I: [u8; 25] = [
    0x10, 0x01, 0x00, 0x00, 0x0A, 0x00, 0x00, 0x19, 0x00, 0x00, 0x00, 0x80, 0x00, 0x00, 0x02, 0x09, 0x02, 0x30, 0x90,
    0x00, 0x00, 0x74, 0x0B, 0x02, 0x40,
];

/// Oracle and library both fill these numbers, given just the room for them, and nothing more.
#[track_caller]
pub fn fills(image: &[u8], sheet: &[u32], numbers: &[u32]) {
    for (name, said) in say_all(image, sheet, numbers.len()) {
        assert_eq!(said.outcome, Ok(numbers.len()), "{name}");
        assert_eq!(said.row(), numbers, "{name}");
        assert!(said.leaves_the_rest(), "{name} writes past the last stretch");
    }
}

/// Oracle and library both refuse with this number and place, and write nothing.
#[track_caller]
pub fn refuses(image: &[u8], sheet: &[u32], number: u32, place: u64) {
    refuses_with_room(image, sheet, 64 * 131, number, place);
}

/// The same, with an answer row of so many numbers.
#[track_caller]
pub fn refuses_with_room(image: &[u8], sheet: &[u32], room: usize, number: u32, place: u64) {
    for (name, said) in say_all(image, sheet, room) {
        assert_eq!(said.outcome, Err(Refusal { number, place }), "{name}");
        assert!(said.leaves_the_rest(), "{name} writes though it refuses");
    }
}

fn say_all(image: &[u8], sheet: &[u32], room: usize) -> [(&'static str, Said); 2] {
    let lent = Lent { image: image.to_vec(), sheet: sheet.to_vec(), room };
    let finders: [(&str, &Finder); 2] = [("oracle", &oracle), ("library", &library)];
    finders.map(|(name, finder)| (name, lent.ask(finder)))
}

/// Compares the library with the oracle on the cases of so many seeds, after so many others; a mismatch fails the test.
pub fn compare_and_show(name: &str, after: u64, seeds: u64, cases_of: fn(u64) -> Vec<Case>) -> Tally {
    let first = first_seed(0) + after;
    let tally = compare_seeds(first..first + seeds, cases_of, &library).unwrap_or_else(|told| panic!("{told}"));
    show(&format!("{name}, seeds {first} to {}: {tally}", first + seeds - 1));
    tally
}

/// Shows a line at once, though the test may pass.
pub fn show(line: &str) {
    writeln!(std::io::stderr(), "{line}").expect("standard error takes a line");
}

/// The seed to start from: the variable CASES_FROM, or the number given.
pub fn first_seed(otherwise: u64) -> u64 {
    match std::env::var("CASES_FROM") {
        Ok(seed) => seed.parse().expect("CASES_FROM is a number"),
        Err(_) => otherwise,
    }
}
