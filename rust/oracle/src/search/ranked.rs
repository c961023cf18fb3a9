//! "Rank: higher score, then lower document number." "The bar at document d is the k-th best score among matching
//! documents below d, or 0 where there are fewer than k."

use super::Question;

#[derive(Clone, Copy, Debug, PartialEq, Eq)]
pub struct Row {
    pub document: u32,
    pub score: u64,
}

/// All matching documents below some document, best first. It is filled by walking up the documents one by one.
#[derive(Default)]
pub struct Ranked {
    rows: Vec<Row>,
}

impl Ranked {
    /// Takes the next document in, if it matches.
    pub fn pass(&mut self, question: &Question, document: u32) {
        if question.matches(document) {
            let row = Row { document, score: question.score(document) };
            let place = self.rows.partition_point(|&other| (question.rules.outranks)(other, row));
            self.rows.insert(place, row);
        }
    }

    /// The bar at the first document not yet passed.
    pub fn bar(&self, question: &Question) -> u64 {
        (question.rules.bar)(&self.rows, question.query.k)
    }

    /// The k best.
    pub fn best(&self, k: usize) -> &[Row] {
        &self.rows[..k.min(self.rows.len())]
    }
}
