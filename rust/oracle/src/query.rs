//! A query's record: "its mode, k (1 to 64), budget (any 32-bit number), the number of terms q (1 to 16), then q pairs
//! of term and weight". "A term may be repeated; each mention counts with its own weight and its own postings".

#[derive(Clone, Copy, Debug, PartialEq, Eq)]
pub enum Mode {
    Plain,
    Pruned,
    All,
}

#[derive(Clone, Copy, Debug, PartialEq, Eq)]
pub struct Mention {
    pub term: usize,
    pub weight: u64,
}

#[derive(Clone, Debug, PartialEq, Eq)]
pub struct Query {
    pub mode: Mode,
    pub k: usize,
    pub budget: u64,
    pub mentions: Vec<Mention>,
}
