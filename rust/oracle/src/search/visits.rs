//! Which documents a mode visits and what each costs, the budget aside: bars, visits and costs do not depend on it.

use super::{Question, Ranked};
use crate::query::Mode;

/// A visited document.
#[derive(Clone, Copy, Debug, PartialEq, Eq)]
pub struct Visit {
    pub document: u32,
    pub cost: u64,
    /// "the costs of all visited documents below d".
    pub spent: u64,
}

/// All visited documents of 0 to N-1, in order.
pub fn visits(question: &Question) -> Vec<Visit> {
    let cost_at = match question.query.mode {
        Mode::Plain => question.rules.plain_cost,
        Mode::Pruned => question.rules.pruned_cost,
        Mode::All => question.rules.all_terms_cost,
    };
    let mut ranked = Ranked::default();
    let mut visits = Vec::new();
    let mut spent = 0;
    for document in 0..question.index.documents {
        let bar = ranked.bar(question);
        if let Some(cost) = cost_at(question, bar, document) {
            visits.push(Visit { document, cost, spent });
            spent += cost;
        }
        ranked.pass(question, document);
    }
    visits
}

/// For each visited document the least budget that does not stop before it.
pub fn boundaries(question: &Question) -> Vec<u64> {
    visits(question).iter().map(|visit| visit.spent + question.q() as u64).collect()
}
