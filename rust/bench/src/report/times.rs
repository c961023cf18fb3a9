//! The table of times: judging alone, then each sheet's evaluation alone, and how the targets stand.

use super::layout::{Table, each, figure, grouped};
use crate::evaluators::{COUNT, FINDER, PLAIN, TUNED};
use crate::make::{Sheet, Workload};
use crate::measure::{Measured, Meter, Times};

const HEAD: [&str; 8] = [
    "what",
    "postings",
    "ms: finder / tuned / plain",
    "finder to tuned",
    "finder to plain",
    "ns a posting",
    "queries/s",
    "queries/s with judging",
];

const LEGEND: &str = "\
The least of at least 5 rounds, in which finder, tuned and plain take turns; cells of three are in this order.
A call always judges the image. 'judging' is a call whose only query has budget 0; the other rows are the evaluation
alone: the whole call less judging, for each evaluator its own. Postings are those judged, or those scored.";

/// The largest ratios allowed, of judging and of each mode, to tuned Rust.
const JUDGING_TARGET: f64 = 1.15;
const MODE_TARGETS: [f64; 3] = [1.2, 1.2, 1.25];

/// Milliseconds of each evaluator.
type Cost = [f64; COUNT];

/// Measures the sheets whose names hold all these words; the error says where answers differ.
pub fn times(words: &[&str]) -> Result<String, String> {
    let Workload { collection, mut sheets } = Workload::full();
    sheets.retain(|sheet| words.iter().all(|word| sheet.name.contains(word)));
    if sheets.is_empty() {
        return Err(format!("no sheet's name holds {words:?}"));
    }
    eprintln!("making the image");
    let image = collection.image();
    let mut meter = Meter::new(&image);
    let mut measured = Vec::new();
    for (i, sheet) in sheets.iter().enumerate() {
        eprintln!("{} of {}: {}", i + 1, sheets.len(), sheet.name);
        measured.push(meter.measure(&sheet.numbers).map_err(|told| format!("{}: {told}", sheet.name))?);
    }
    let judging = milliseconds(meter.judging);
    let mut table = Table::new(&HEAD);
    table.push(judging_row(&judging, image.len(), collection.postings_in_all()));
    for (sheet, measured) in sheets.iter().zip(&measured) {
        table.push(sheet_row(sheet, measured, &judging));
    }
    let about = format!(
        "{}; image of {} bytes, N {}, T {}, {} postings",
        machine(),
        grouped(image.len() as u64),
        grouped(u64::from(collection.documents)),
        grouped(collection.lengths.len() as u64),
        grouped(collection.postings_in_all() as u64),
    );
    Ok([about, LEGEND.into(), String::new(), table.text(), String::new(), targets(&sheets, &measured, &judging)]
        .join("\n"))
}

/// The processor: what `lscpu` calls it, and what the code was compiled for.
fn machine() -> String {
    let told = std::process::Command::new("lscpu").output().map(|run| run.stdout).unwrap_or_default();
    let told = String::from_utf8_lossy(&told);
    let model = told.lines().find_map(|line| line.strip_prefix("Model name:")).map_or("unknown processor", str::trim);
    format!("{model} ({})", std::env::consts::ARCH)
}

fn milliseconds(times: Times) -> Cost {
    times.map(|time| time.as_secs_f64() * 1e3)
}

/// The whole call less judging.
fn alone(measured: &Measured, judging: &Cost) -> Cost {
    let calls = milliseconds(measured.calls);
    std::array::from_fn(|i| calls[i] - judging[i])
}

fn judging_row(judging: &Cost, bytes: usize, postings: usize) -> Vec<String> {
    let rate = judging.map(|ms| bytes as f64 / ms / 1e3);
    vec![
        "judging".into(),
        grouped(postings as u64),
        each(*judging),
        figure(judging[FINDER] / judging[TUNED]),
        figure(judging[FINDER] / judging[PLAIN]),
        each(judging.map(|ms| ms * 1e6 / postings as f64)),
        format!("{} MB/s", each(rate)),
        String::new(),
    ]
}

fn sheet_row(sheet: &Sheet, measured: &Measured, judging: &Cost) -> Vec<String> {
    let alone = alone(measured, judging);
    let queries = f64::from(sheet.numbers[0]) * 1e3;
    vec![
        sheet.name.clone(),
        grouped(measured.scored),
        each(alone),
        figure(alone[FINDER] / alone[TUNED]),
        figure(alone[FINDER] / alone[PLAIN]),
        each(alone.map(|ms| ms * 1e6 / measured.scored as f64)),
        each(alone.map(|ms| queries / ms)),
        each(milliseconds(measured.calls).map(|ms| queries / ms)),
    ]
}

/// The largest ratio of each kind of row beside its target.
fn targets(sheets: &[Sheet], measured: &[Measured], judging: &Cost) -> String {
    let costs = || sheets.iter().zip(measured).map(|(sheet, measured)| (sheet.mode, alone(measured, judging)));
    let largest = |mode: u32| {
        let rows = costs().filter(|row| row.0 == Some(mode));
        rows.map(|(_, cost)| cost[FINDER] / cost[TUNED]).reduce(f64::max)
    };
    let to_plain = costs().map(|(_, cost)| cost[FINDER] / cost[PLAIN]).fold(judging[FINDER] / judging[PLAIN], f64::max);
    let mut lines = vec![target("judging, finder to tuned", judging[FINDER] / judging[TUNED], JUDGING_TARGET)];
    for (mode, &most) in MODE_TARGETS.iter().enumerate() {
        let ratio = largest(mode as u32);
        lines.extend(ratio.map(|ratio| target(&format!("mode {mode}, finder to tuned, the largest"), ratio, most)));
    }
    lines.push(target("all rows, finder to plain, the largest", to_plain, 1.0));
    lines.join("\n")
}

fn target(what: &str, ratio: f64, most: f64) -> String {
    let stands = if ratio <= most { "holds" } else { "missed" };
    format!("- {what}: {}, target {most:.2}: {stands}", figure(ratio))
}
