//! A sheet under construction. It judges nothing: what it is given is what the library is shown, and the library
//! refuses.

/// How a query is evaluated.
#[derive(Clone, Copy, Debug, PartialEq, Eq, Hash)]
pub enum Mode {
    /// Every document that some list holds.
    Plain = 0,
    /// The same rows with fewer postings scored (MaxScore).
    Pruned = 1,
    /// Only documents that every mention's list holds.
    All = 2,
}

/// One mention of a term in a query. A term may be mentioned more than once.
#[derive(Clone, Copy, Debug, PartialEq, Eq, Hash)]
pub struct Mention {
    pub term: u32,
    pub weight: u32,
}

/// One query: its mode, the number of rows wanted, the budget of postings, and its mentions.
#[derive(Clone, Debug, PartialEq, Eq, Hash)]
pub struct Query {
    pub mode: Mode,
    pub k: u32,
    pub budget: u32,
    pub mentions: Vec<Mention>,
}

impl Query {
    /// A query without mentions yet.
    pub fn new(mode: Mode, k: u32, budget: u32) -> Query {
        Query { mode, k, budget, mentions: Vec::new() }
    }

    /// The same query with one more mention.
    pub fn mention(mut self, term: u32, weight: u32) -> Query {
        self.mentions.push(Mention { term, weight });
        self
    }
}

/// A row of queries that are asked in one call, as the numbers the library reads.
#[derive(Clone, Debug, PartialEq, Eq, Hash)]
pub struct Sheet {
    numbers: Vec<u32>,
}

impl Sheet {
    /// A sheet of no queries yet.
    pub fn new() -> Sheet {
        Sheet { numbers: vec![0] }
    }

    /// A sheet of any numbers at all.
    pub fn from_numbers(numbers: Vec<u32>) -> Sheet {
        Sheet { numbers }
    }

    /// Adds a query and counts it in the first number.
    pub fn push(&mut self, query: &Query) {
        match self.numbers.first_mut() {
            Some(queries) => *queries = queries.saturating_add(1),
            None => self.numbers.push(1),
        }
        let terms = u32::try_from(query.mentions.len()).unwrap_or(u32::MAX);
        self.numbers.extend([query.mode as u32, query.k, query.budget, terms]);
        self.numbers.extend(query.mentions.iter().flat_map(|mention| [mention.term, mention.weight]));
    }

    /// The numbers the library reads.
    pub fn numbers(&self) -> &[u32] {
        &self.numbers
    }

    /// How long each query's stretch of the answer row is, as far as the numbers go. A sheet that breaks off, or that
    /// says more than is allowed, is refused before its stretches are needed.
    pub(crate) fn stretches(&self) -> Vec<usize> {
        let mut rest = self.numbers.get(1..).unwrap_or_default();
        let mut stretches = Vec::new();
        while let [_, k @ 0..=64, _, q @ 0..=16, pairs @ ..] = rest {
            stretches.push(3 + 2 * *k as usize);
            rest = pairs.get(2 * *q as usize..).unwrap_or_default();
        }
        stretches
    }
}

impl Default for Sheet {
    fn default() -> Sheet {
        Sheet::new()
    }
}
