//! "The query stops before the first visited document d at which the costs of all visited documents below d, plus q,
//! exceed the budget: the place is d. If there is none, the place is N." The rows are the best below the place.

use super::visits::visits;
use super::{Question, Ranked, Row};

#[derive(Clone, Debug, PartialEq, Eq)]
pub struct Answer {
    pub place: u32,
    pub postings_scored: u64,
    pub rows: Vec<Row>,
}

pub fn answer(question: &Question) -> Answer {
    let (query, rules) = (question.query, question.rules);
    let visits = visits(question);
    let stop = visits.iter().find(|visit| (rules.stops)(visit, question.q() as u64, query.budget));
    let place = match stop {
        Some(visit) => (rules.stop_place)(visit.document),
        None => (rules.finish_place)(question.index.documents),
    };
    let counted = visits.iter().filter(|visit| (rules.counts)(visit, place));
    let postings_scored = counted.map(|visit| visit.cost).sum();
    let mut ranked = Ranked::default();
    for document in 0..place {
        ranked.pass(question, document);
    }
    Answer { place, postings_scored, rows: ranked.best(query.k).to_vec() }
}
