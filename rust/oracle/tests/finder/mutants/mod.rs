//! Deliberate errors in the oracle, one at a time: the comparison has to notice every one.

mod hollow;
mod image;
mod order;
mod search;
mod sheet;

use crate::tested::{first_seed, show};
use oracle::call::call;
use oracle::cases::Case;
use oracle::compare::{Finder, Lent, compare_seeds, differs, oracle, shrink};
use oracle::outcome::Outcome;
use oracle::rules::{DOCUMENT_01, Rules};

/// Cases to notice an error in; most are noticed within the first hundreds.
const MOST_CASES: u64 = 20_000;

/// A finder with one error.
pub struct Mutant {
    name: &'static str,
    finder: Box<Finder<'static>>,
}

/// What makes a rule wrong.
type Change = fn(&mut Rules);
/// A wrong finder around the oracle.
type Around = fn(&[u8], &[u32], &mut [u32]) -> Outcome;

fn with_rule(&(name, change): &(&'static str, Change)) -> Mutant {
    let mut rules = DOCUMENT_01;
    change(&mut rules);
    Mutant { name, finder: Box::new(move |image, sheet, row| call(image, sheet, row, &rules)) }
}

fn with_finder(&(name, finder): &(&'static str, Around)) -> Mutant {
    Mutant { name, finder: Box::new(finder) }
}

fn all_mutants() -> Vec<Mutant> {
    let rules = [image::MUTANTS, sheet::MUTANTS, search::MUTANTS].concat();
    let finders = [order::MUTANTS, hollow::MUTANTS].concat();
    rules.iter().map(with_rule).chain(finders.iter().map(with_finder)).collect()
}

#[test]
fn every_mutant_is_noticed() {
    let mutants = all_mutants();
    let noticed = first_noticed(&mutants);
    for (mutant, seed) in mutants.iter().zip(&noticed) {
        let result = seed.map_or("NOT noticed".into(), |seed| result(mutant, seed));
        show(&format!("mutant: {}: {result}", mutant.name));
    }
    let missed = noticed.iter().filter(|seed| seed.is_none()).count();
    show(&format!("mutants: {} of {} noticed", mutants.len() - missed, mutants.len()));
    assert_eq!(missed, 0, "an error in the finder would not be noticed");
}

/// The comparison tells the seed, a small image and sheet, and both answers with their difference marked.
#[test]
fn a_mismatch_is_shrunk_and_shown() {
    let mutants = all_mutants();
    let mutant = mutants.iter().find(|mutant| mutant.name == "an equal score pushes out an earlier document");
    let finder = &*mutant.expect("the mutant is in the list").finder;
    let told = compare_seeds(0..MOST_CASES, |seed| vec![Case::from_seed(seed)], finder).expect_err("it is noticed");
    let lines: Vec<&str> = told.lines().collect();
    assert!(lines[0].starts_with("mismatch at seed "), "{told}");
    assert!(lines[1].starts_with("image of 2"), "{told}");
    assert!(lines[2].starts_with("sheet of 7 numbers: 1, "), "{told}");
    assert!(lines[4].contains("oracle") && lines[4].contains("tested"), "{told}");
    assert!(lines.iter().any(|line| line.ends_with("<--")), "{told}");
}

/// For each mutant the first seed whose case tells it from the oracle.
fn first_noticed(mutants: &[Mutant]) -> Vec<Option<u64>> {
    let first = first_seed(0);
    let mut noticed = vec![None; mutants.len()];
    for seed in first..first + MOST_CASES {
        if noticed.iter().all(Option::is_some) {
            break;
        }
        let lent = Lent::new(&Case::from_seed(seed));
        let expected = lent.ask(&oracle);
        for (mutant, noticed) in mutants.iter().zip(&mut noticed).filter(|(_, noticed)| noticed.is_none()) {
            *noticed = (lent.ask(&*mutant.finder) != expected).then_some(seed);
        }
    }
    noticed
}

/// Where it was noticed, and how small the case becomes that shows it.
fn result(mutant: &Mutant, seed: u64) -> String {
    let smallest = shrink(&Case::from_seed(seed), &|case| differs(case, &*mutant.finder));
    let smallest = Lent::new(&smallest);
    let (bytes, numbers) = (smallest.image.len(), smallest.sheet.len());
    format!("noticed at seed {seed}, shrunk to an image of {bytes} bytes and a sheet of {numbers} numbers")
}
