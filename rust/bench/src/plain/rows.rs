//! The best k rows, as a binary heap with the worst on top; and a query's answer.

use std::cmp::Reverse;
use std::collections::BinaryHeap;

pub struct Rows {
    k: usize,
    /// Score, then the lower document before the higher.
    heap: BinaryHeap<Reverse<(u64, Reverse<u32>)>>,
}

pub struct Answer {
    pub place: u32,
    pub scored: u64,
    pub rows: Rows,
}

impl Rows {
    pub fn new(k: usize) -> Rows {
        Rows { k, heap: BinaryHeap::with_capacity(k) }
    }

    /// The k-th best score, or 0 where there are fewer rows.
    pub fn bar(&self) -> u64 {
        match self.heap.peek() {
            Some(&Reverse((score, _))) if self.heap.len() == self.k => score,
            _ => 0,
        }
    }

    /// Documents are added rising: one with an equal score ranks behind.
    pub fn add(&mut self, document: u32, score: u64) {
        if self.heap.len() == self.k {
            if score <= self.bar() {
                return;
            }
            self.heap.pop();
        }
        self.heap.push(Reverse((score, Reverse(document))));
    }
}

impl Answer {
    pub fn fill(self, stretch: &mut [u32]) {
        let rows = self.rows.heap.into_sorted_vec();
        stretch.fill(0);
        stretch[0] = self.place;
        stretch[1] = rows.len() as u32;
        stretch[2] = self.scored as u32;
        for (pair, Reverse((score, Reverse(document)))) in stretch[3..].chunks_exact_mut(2).zip(rows) {
            pair[0] = document;
            pair[1] = score as u32;
        }
    }
}
