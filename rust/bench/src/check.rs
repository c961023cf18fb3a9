//! The answers of all evaluators compared: with the oracle's on a small image, the Rust ones on random cases too.

use crate::evaluators::{EVALUATORS, FINDER, LONGEST_ROW};
use crate::make::Workload;
use oracle::cases::Case;
use oracle::compare::{compare_seeds, oracle};

const SEEDS: u64 = 5_000;

/// Says what was compared; the error tells the first difference.
pub fn check() -> Result<String, String> {
    let Workload { collection, sheets } = Workload::small();
    let image = collection.image();
    for sheet in &sheets {
        let mut expected = vec![u32::MAX; LONGEST_ROW];
        let outcome = oracle(&image, &sheet.numbers, &mut expected);
        for evaluator in &EVALUATORS {
            let mut row = vec![u32::MAX; LONGEST_ROW];
            if (evaluator.answer)(&image, &sheet.numbers, &mut row) != outcome || row != expected {
                return Err(format!("{} and the oracle differ on the sheet '{}'", evaluator.name, sheet.name));
            }
        }
    }
    let mut said = format!("{} sheets alike on an image of {} bytes", sheets.len(), image.len());
    for (_, evaluator) in EVALUATORS.iter().enumerate().filter(|&(place, _)| place != FINDER) {
        let tally = compare_seeds(0..SEEDS, |seed| vec![Case::from_seed(seed)], &evaluator.answer)
            .map_err(|told| format!("{}: {told}", evaluator.name))?;
        said += &format!("\n{}: {tally}", evaluator.name);
    }
    Ok(said)
}
