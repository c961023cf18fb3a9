//! A sheet under construction, sound or not: what it says of its queries may differ from what it holds.

/// A query's numbers. `terms` is the q it says, its pairs are the mentions.
#[derive(Clone, Debug, PartialEq, Eq)]
pub struct QueryDraft {
    pub mode: u32,
    pub k: u32,
    pub budget: u32,
    pub terms: u32,
    pub mentions: Vec<(u32, u32)>,
}

/// The number of queries that the sheet says, its queries, and the numbers lacking or left over at its end.
#[derive(Clone, Debug, PartialEq, Eq)]
pub struct SheetDraft {
    pub says: u32,
    pub queries: Vec<QueryDraft>,
    pub lacking: usize,
    pub left_over: Vec<u32>,
}

impl QueryDraft {
    /// A query that says what it holds.
    pub fn new(mode: u32, k: u32, budget: u32, mentions: &[(u32, u32)]) -> QueryDraft {
        QueryDraft { mode, k, budget, terms: mentions.len() as u32, mentions: mentions.to_vec() }
    }
}

impl SheetDraft {
    /// A sheet that says what it holds.
    pub fn new(queries: Vec<QueryDraft>) -> SheetDraft {
        SheetDraft { says: queries.len() as u32, queries, lacking: 0, left_over: Vec::new() }
    }

    /// The sheet's numbers.
    pub fn numbers(&self) -> Vec<u32> {
        let mut numbers = vec![self.says];
        for query in &self.queries {
            numbers.extend([query.mode, query.k, query.budget, query.terms]);
            numbers.extend(query.mentions.iter().flat_map(|&(term, weight)| [term, weight]));
        }
        numbers.truncate(numbers.len().saturating_sub(self.lacking));
        numbers.extend(&self.left_over);
        numbers
    }

    /// The numbers that its answers need, as far as each k is an allowed one.
    pub fn needed(&self) -> usize {
        self.queries.iter().map(|query| 3 + 2 * query.k.min(64) as usize).sum()
    }
}
