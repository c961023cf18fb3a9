//! The library beside the oracle on random cases by seed, and the soak.

use crate::tested::{compare_and_show, first_seed, library, show};
use oracle::cases::{Case, Random, draft_image_of, draft_query};
use oracle::compare::{Tally, compare_seeds};
use oracle::write::SheetDraft;
use std::sync::Mutex;
use std::sync::atomic::{AtomicU64, Ordering};
use std::thread;
use std::time::Instant;

/// Cases in each of the four parts below.
const PART: u64 = 26_000;
/// Cases of the soak, and of each step that its progress line tells.
const SOAK: u64 = 10_000_000;
const STEP: u64 = 50_000;

fn one_case(seed: u64) -> Vec<Case> {
    vec![Case::from_seed(seed)]
}

/// Every outcome of document 01's table is met many times in each part.
fn compare_part(part: u64) {
    let tally = compare_and_show("random cases", part * PART, PART, one_case);
    assert!(tally.fewest() >= PART / 1_000, "an outcome is hardly met");
}

#[test]
fn random_cases_part_1() {
    compare_part(0);
}

#[test]
fn random_cases_part_2() {
    compare_part(1);
}

#[test]
fn random_cases_part_3() {
    compare_part(2);
}

#[test]
fn random_cases_part_4() {
    compare_part(3);
}

/// Few postings among as many documents as an image can have.
#[test]
fn the_largest_numbers_of_documents() {
    compare_and_show("large numbers of documents", 0, 4, |seed| {
        let mut random = Random::new(seed);
        let documents = random.pick(&[(1 << 24) - 1, (1 << 24) - 1, 1 << 20]);
        let image = draft_image_of(&mut random, documents, 3);
        let mut query = draft_query(&mut random, 3);
        query.mentions.truncate(2);
        query.terms = query.mentions.len() as u32;
        vec![Case { image, damages: Vec::new(), sheet: SheetDraft::new(vec![query]), spare: 0 }]
    });
}

/// Ten million cases on all cores; the first mismatch ends it.
#[test]
#[ignore = "the soak: ten million cases"]
fn soak() {
    let first = first_seed(1_000_000_000);
    let (begun, started) = (AtomicU64::new(0), Instant::now());
    let total = Mutex::new(Tally::default());
    let work = || -> Result<(), String> {
        loop {
            let from = begun.fetch_add(STEP, Ordering::Relaxed);
            if from >= SOAK {
                return Ok(());
            }
            let compared = compare_seeds(first + from..first + from + STEP, one_case, &library);
            let tally = compared.inspect_err(|_| begun.store(SOAK, Ordering::Relaxed))?;
            let mut total = total.lock().expect("no thread falls over");
            total.merge(&tally);
            show(&format!("soak from seed {first}, {} s: {total}", started.elapsed().as_secs()));
        }
    };
    let cores = thread::available_parallelism().map_or(1, |cores| cores.get());
    thread::scope(|scope| {
        let threads: Vec<_> = (0..cores).map(|_| scope.spawn(work)).collect();
        for thread in threads {
            thread.join().expect("no thread falls over").unwrap_or_else(|told| panic!("{told}"));
        }
    });
}
