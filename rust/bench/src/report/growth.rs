//! The table of growth: what a query costs against list length, number of terms, k and image size, one at a time.

use super::layout::{Table, figure, grouped};
use crate::evaluators::{FINDER, TUNED};
use crate::make::{Collection, Plan, Terms, Weights};
use crate::measure::Meter;

const LEGEND: &str = "\
Judging in ms, evaluation alone in microseconds a query, finder / tuned, as in the table of times. N is 1,000,000, all
lists of an image have the same length, weights are any of 1 to 255. In brackets the finder's growth against the row
before: 1 where it is as the number in the second column, 0 where it does not depend on it.";

const DOCUMENTS: u32 = 1_000_000;

/// What is held while another thing grows.
#[derive(Clone, Copy)]
struct Setting {
    length: usize,
    lists: usize,
    q: u32,
    k: u32,
}

const USUAL: Setting = Setting { length: 30_000, lists: 32, q: 4, k: 10 };

/// A thing that grows, in steps.
struct Growing {
    what: &'static str,
    steps: &'static [usize],
    set: fn(&mut Setting, usize),
}

const GROWING: [Growing; 4] = [
    Growing {
        what: "list length",
        steps: &[3_000, 10_000, 30_000, 100_000, 300_000],
        set: |setting, length| setting.length = length,
    },
    Growing { what: "terms of a query", steps: &[1, 2, 4, 8, 16], set: |setting, q| setting.q = q as u32 },
    Growing { what: "k", steps: &[1, 4, 16, 64], set: |setting, k| setting.k = k as u32 },
    Growing { what: "lists of the image", steps: &[32, 64, 128, 256], set: |setting, lists| setting.lists = lists },
];

/// The finder's and tuned Rust's costs: judging, then each mode.
type Costs = [[f64; 2]; 4];

/// Measures everything; the error says where answers differ.
pub fn growth() -> Result<String, String> {
    let mut table = Table::new(&["what grows", "", "image MB", "judging", "mode 0", "mode 1", "mode 2"]);
    for growing in &GROWING {
        let mut before: Option<(usize, Costs)> = None;
        for &step in growing.steps {
            eprintln!("{}: {step}", growing.what);
            let mut setting = USUAL;
            (growing.set)(&mut setting, step);
            let (bytes, costs) = measure(setting)?;
            let mut row = vec![growing.what.into(), grouped(step as u64), figure(bytes as f64 / 1e6)];
            row.extend((0..4).map(|i| cell(step, costs[i], before.map(|(step, costs)| (step, costs[i])))));
            table.push(row);
            before = Some((step, costs));
        }
    }
    Ok([LEGEND.into(), String::new(), table.text()].join("\n"))
}

fn measure(setting: Setting) -> Result<(usize, Costs), String> {
    let collection = Collection { documents: DOCUMENTS, lengths: vec![setting.length; setting.lists], seed: 9 };
    let image = collection.image();
    let mut meter = Meter::new(&image);
    let mut calls = Vec::new();
    for mode in [0, 1, 2] {
        let plan = Plan { mode, terms: Terms::Each(setting.q), k: setting.k, weights: Weights::Any };
        calls.push(meter.measure(&plan.sheet(&Collection { lengths: vec![setting.length; 32], ..collection }))?);
    }
    let judging = [FINDER, TUNED].map(|i| meter.judging[i].as_secs_f64());
    let mut costs = [judging.map(|seconds| seconds * 1e3); 4];
    for (cost, call) in costs[1..].iter_mut().zip(&calls) {
        *cost = std::array::from_fn(|i| (call.calls[[FINDER, TUNED][i]].as_secs_f64() - judging[i]) * 1e6 / 64.0);
    }
    Ok((image.len(), costs))
}

fn cell(step: usize, cost: [f64; 2], before: Option<(usize, [f64; 2])>) -> String {
    let costs = cost.map(figure).join(" / ");
    match before {
        Some((step_before, cost_before)) => {
            let growth = (cost[0] / cost_before[0]).ln() / (step as f64 / step_before as f64).ln();
            format!("{costs} ({growth:.2})")
        }
        None => costs,
    }
}
