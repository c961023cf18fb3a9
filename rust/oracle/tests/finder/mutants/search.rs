//! Errors in scores, bars, costs and the place.

use super::Change;
use oracle::search::{Question, Row, plain_cost, pruned_cost};

pub const MUTANTS: &[(&str, Change)] = &[
    // Document 01's "errors that look right".
    ("a document is dropped only below the bar", |r| r.search.drops = |sum, bar| sum < bar),
    ("an equal score pushes out an earlier document", |r| {
        r.search.outranks =
            |one, other| one.score > other.score || one.score == other.score && one.document > other.document;
    }),
    ("the bar is raised before k rows stand", |r| {
        r.search.bar = |ranked, k| ranked.get(k - 1).or(ranked.last()).map_or(0, |row| row.score);
    }),
    // A hollow version: "runs plain evaluation and calls it pruned".
    ("plain evaluation is called pruned", |r| r.search.pruned_cost = plain_cost),
    // Boundaries.
    ("weights are not taken", |r| r.search.product = |_, impact| impact),
    ("all terms but one", |r| r.search.all_match = |holding, q| holding + 1 >= q && holding > 0),
    ("all terms asked of modes 0 and 1", |r| r.search.some_match = |holding, q| holding == q),
    ("the bar is the best but k", |r| {
        r.search.bar = |ranked, k| ranked.get(k).map_or(0, |row| row.score);
    }),
    ("the bar is the best score", |r| {
        r.search.bar = |ranked, k| if ranked.len() < k { 0 } else { ranked[0].score };
    }),
    ("the bar counts equal scores once", |r| r.search.bar = bar_of_distinct_scores),
    ("plain evaluation costs q", |r| {
        r.search.plain_cost =
            |question, bar, document| plain_cost(question, bar, document).map(|_| question.q() as u64);
    }),
    ("all terms cost 1", |r| {
        r.search.all_terms_cost = |question, _, document| question.matches(document).then_some(1);
    }),
    ("all terms visit what some list holds", |r| {
        r.search.all_terms_cost =
            |question, _, document| (question.holding(document) > 0).then_some(question.q() as u64);
    }),
    ("a dropped document costs nothing", |r| r.search.pruned_cost = cost_unless_dropped),
    ("every document that matches is visited", |r| {
        r.search.pruned_cost =
            |question, bar, document| pruned_cost(question, bar, document).or(question.matches(document).then_some(0));
    }),
    ("equal ceilings in reverse", |r| {
        r.search.comes_before = |one, other| one.0 < other.0 || one.0 == other.0 && one.1 > other.1;
    }),
    ("ceilings from the highest", |r| r.search.comes_before = |one, other| (other.0, one.1) < (one.0, other.1)),
    ("mentions are set aside only below the bar", |r| r.search.sets_aside = |sum, bar| sum < bar),
    ("no mention is set aside", |r| r.search.sets_aside = |_, _| false),
    ("the drop test leaves its own rank out", |r| r.search.rank_of_bound = |rank| rank - 1),
    ("nothing is dropped", |r| r.search.drops = |_, _| false),
    ("a lookup costs 1 though the list does not hold it", |r| r.search.lookup_cost = |_| 1),
    ("a lookup costs nothing", |r| r.search.lookup_cost = |_| 0),
    ("a query stops at its budget", |r| r.search.stops = |visit, q, budget| visit.spent + q >= budget),
    ("a query stops one late", |r| r.search.stops = |visit, q, budget| visit.spent + q > budget + 1),
    ("the stop rule takes the true cost", |r| {
        r.search.stops = |visit, _, budget| visit.spent + visit.cost > budget;
    }),
    ("the stop rule forgets q", |r| r.search.stops = |visit, _, budget| visit.spent > budget),
    ("the stop rule takes q from the budget in 32 bits", |r| {
        r.search.stops = |visit, q, budget| visit.spent > u64::from((budget as u32).wrapping_sub(q as u32));
    }),
    ("the place is after the stop", |r| r.search.stop_place = |document| document + 1),
    ("the place is before the stop", |r| r.search.stop_place = |document| document.saturating_sub(1)),
    ("a finished place is the last document", |r| {
        r.search.finish_place = |documents| documents.saturating_sub(1);
    }),
    ("the costs at the place are counted", |r| r.search.counts = |visit, place| visit.document <= place),
];

fn bar_of_distinct_scores(ranked: &[Row], k: usize) -> u64 {
    let mut scores: Vec<u64> = ranked.iter().map(|row| row.score).collect();
    scores.dedup();
    scores.get(k - 1).copied().unwrap_or(0)
}

fn cost_unless_dropped(question: &Question, bar: u64, document: u32) -> Option<u64> {
    let cost = pruned_cost(question, bar, document)?;
    Some(if question.score(document) > bar { cost } else { 0 })
}
