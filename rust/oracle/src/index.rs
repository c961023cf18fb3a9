//! What an image says once it is judged: for each term its postings and largest impact.

/// A document that a list holds, and its impact there.
#[derive(Clone, Copy, Debug, PartialEq, Eq)]
pub struct Posting {
    pub document: u32,
    pub impact: u32,
}

/// A term's postings by rising document number, and its largest impact.
#[derive(Clone, Debug, PartialEq, Eq)]
pub struct List {
    pub largest: u32,
    pub postings: Vec<Posting>,
}

/// Documents are numbered 0 to `documents` less one, terms by their place in `lists`.
#[derive(Clone, Debug, PartialEq, Eq)]
pub struct Index {
    pub documents: u32,
    pub lists: Vec<List>,
}

impl List {
    /// The document's impact, if the list holds it.
    pub fn impact(&self, document: u32) -> Option<u32> {
        let place = self.postings.binary_search_by_key(&document, |posting| posting.document);
        place.ok().map(|place| self.postings[place].impact)
    }
}
