//! Asking a sheet and reading its answers back from the row.

use crate::{Refusal, Sheet, answer_into};

/// One ranked row of an answer.
#[derive(Clone, Copy, Debug, PartialEq, Eq, Hash)]
pub struct Row {
    pub document: u32,
    pub score: u32,
}

/// What one query was answered: the best rows among the documents below the place.
#[derive(Clone, Debug, PartialEq, Eq, Hash)]
pub struct Answer {
    /// The document before which the query stopped, or the number of documents.
    pub place: u32,
    /// Whether all documents were considered: the budget did not stop the query.
    pub finished: bool,
    /// Best first: higher score, then lower document number.
    pub rows: Vec<Row>,
    /// The postings scored, never more than the budget.
    pub postings_scored: u32,
}

/// Asks all queries of the sheet, and gives one answer for each.
pub fn ask(image: &[u8], sheet: &Sheet) -> Result<Vec<Answer>, Refusal> {
    let stretches = sheet.stretches();
    let mut row = vec![0; stretches.iter().sum()];
    answer_into(image, sheet.numbers(), &mut row)?;
    let documents = number_of_documents(image);
    let mut rest = &row[..];
    Ok(stretches
        .iter()
        .map(|&length| {
            let (stretch, after) = rest.split_at(length);
            rest = after;
            read_answer(stretch, documents)
        })
        .collect())
}

/// The 24 bits after version and number of terms, in an image that was not refused.
fn number_of_documents(image: &[u8]) -> u32 {
    u32::from_be_bytes([0, image[2], image[3], image[4]])
}

fn read_answer(stretch: &[u32], documents: u32) -> Answer {
    let (place, found, postings_scored) = (stretch[0], stretch[1] as usize, stretch[2]);
    let rows = stretch[3..].chunks_exact(2).take(found).map(|row| Row { document: row[0], score: row[1] }).collect();
    Answer { place, finished: place == documents, rows, postings_scored }
}
