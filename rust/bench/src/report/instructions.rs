//! The table of instructions: callgrind counts one call of each evaluator on the first queries of each sheet.

use super::layout::{Table, each, figure, grouped};
use crate::evaluators::{COUNT, EVALUATORS, FINDER, JUDGING, LONGEST_ROW, TUNED, postings_scored};
use crate::make::{Sheet, Workload};
use std::path::Path;
use std::process::Command;

const LEGEND: &str = "\
Instructions that callgrind counts in one call, in millions; sheets are cut to their first 8 queries. As with times,
'judging' is a call whose only query stops at once, and the other rows are the whole call less judging.";

/// The queries of a sheet that are counted.
const QUERIES: u32 = 8;

/// The function that callgrind counts in.
const COUNTED: &str = "bench::report::instructions::counted";

/// Counts on the sheets whose names hold all these words.
pub fn instructions(words: &[&str]) -> Result<String, String> {
    let Workload { collection, sheets } = Workload::full();
    let image = collection.image();
    let path = std::env::temp_dir().join(format!("bench-image-{}", std::process::id()));
    std::fs::write(&path, &image).map_err(|error| format!("{}: {error}", path.display()))?;
    let text = table(&path, &image, &sheets, words, collection.postings_in_all());
    std::fs::remove_file(&path).map_err(|error| format!("{}: {error}", path.display()))?;
    text
}

fn table(path: &Path, image: &[u8], sheets: &[Sheet], words: &[&str], postings: usize) -> Result<String, String> {
    let mut table =
        Table::new(&["what", "postings", "millions: finder / tuned / plain", "finder to tuned", "a posting"]);
    let judging = count_all(path, &JUDGING)?;
    table.push(row("judging", judging, postings as u64));
    for sheet in sheets.iter().filter(|sheet| words.iter().all(|word| sheet.name.contains(word))) {
        eprintln!("{}", sheet.name);
        let numbers = first_queries(&sheet.numbers);
        let counts = count_all(path, &numbers)?;
        let mut answer = vec![0; LONGEST_ROW];
        let outcome = (EVALUATORS[TUNED].answer)(image, &numbers, &mut answer);
        outcome.map_err(|refusal| format!("{}: {refusal:?}", sheet.name))?;
        let alone = std::array::from_fn(|i| counts[i] - judging[i]);
        table.push(row(&sheet.name, alone, postings_scored(&numbers, &answer)));
    }
    Ok([LEGEND.into(), String::new(), table.text()].join("\n"))
}

fn row(what: &str, counts: [f64; COUNT], postings: u64) -> Vec<String> {
    vec![
        what.into(),
        grouped(postings),
        each(counts.map(|count| count / 1e6)),
        figure(counts[FINDER] / counts[TUNED]),
        each(counts.map(|count| count / postings as f64)),
    ]
}

/// A sheet of the first queries.
fn first_queries(sheet: &[u32]) -> Vec<u32> {
    let mut end = 1;
    for _ in 0..QUERIES {
        end += 4 + 2 * sheet[end + 3] as usize;
    }
    [&[QUERIES], &sheet[1..end]].concat()
}

fn count_all(path: &Path, sheet: &[u32]) -> Result<[f64; COUNT], String> {
    let mut counts = [0.0; COUNT];
    for (count, evaluator) in counts.iter_mut().zip(&EVALUATORS) {
        *count = count_call(path, evaluator.name, sheet)?;
    }
    Ok(counts)
}

/// Runs this program under callgrind, for one call.
fn count_call(path: &Path, evaluator: &str, sheet: &[u32]) -> Result<f64, String> {
    let program = std::env::current_exe().map_err(|error| error.to_string())?;
    let output = Command::new("valgrind")
        .args(["--tool=callgrind", "--callgrind-out-file=/dev/null"])
        .arg(format!("--toggle-collect={COUNTED}"))
        .arg(program)
        .args(["--one-call", evaluator])
        .arg(path)
        .args(sheet.iter().map(u32::to_string))
        .output()
        .map_err(|error| format!("valgrind: {error}"))?;
    let told = String::from_utf8_lossy(&output.stderr);
    let collected = told.lines().find_map(|line| line.split_once("Collected : "));
    let count = collected.and_then(|(_, counts)| counts.split_whitespace().next()?.parse().ok());
    count.ok_or_else(|| format!("callgrind counted nothing:\n{told}"))
}

/// One call: the evaluator's name, the image's path, and the sheet's numbers.
pub fn one_call(words: &[&str]) -> Result<String, String> {
    let [name, path, numbers @ ..] = words else {
        return Err("--one-call EVALUATOR IMAGE NUMBERS..".into());
    };
    let evaluator = EVALUATORS.iter().find(|evaluator| evaluator.name == *name).ok_or("no such evaluator")?;
    let image = std::fs::read(path).map_err(|error| format!("{path}: {error}"))?;
    let sheet: Result<Vec<u32>, _> = numbers.iter().map(|number| number.parse()).collect();
    let outcome = counted(evaluator.answer, &image, &sheet.map_err(|error| error.to_string())?);
    Ok(format!("{outcome:?}"))
}

#[inline(never)]
fn counted(
    answer: fn(&[u8], &[u32], &mut [u32]) -> oracle::outcome::Outcome,
    image: &[u8],
    sheet: &[u32],
) -> oracle::outcome::Outcome {
    let mut row = [0; LONGEST_ROW];
    answer(image, sheet, &mut row)
}
