//! "The printing program": what it prints for what it finds in index.bin and sheet.bin.

use crate::judge::judge_image;
use crate::outcome::Refusal;
use crate::rules::DOCUMENT_01;
use crate::search::{Question, answer};
use crate::sheet::judge_sheet;

/// "at most 65,536 bytes".
pub const MOST_IMAGE_BYTES: usize = 65_536;
/// "at most 9,220 bytes".
pub const MOST_SHEET_BYTES: usize = 9_220;

/// A file that is not there, or can't be read, is none.
pub fn printed(image: Option<&[u8]>, sheet: Option<&[u8]>) -> String {
    let (Some(image), Some(sheet)) = (image, sheet) else {
        return "no file\n".into();
    };
    if image.len() > MOST_IMAGE_BYTES || sheet.len() > MOST_SHEET_BYTES {
        return "too large\n".into();
    }
    if !sheet.len().is_multiple_of(4) {
        return "odd sheet\n".into();
    }
    // "32-bit numbers, most significant byte first".
    let numbers: Vec<u32> = sheet.as_chunks().0.iter().map(|&bytes| u32::from_be_bytes(bytes)).collect();
    match printed_answers(image, &numbers) {
        Ok(text) => text,
        Err(refusal) => format!("refused {} {}\n", refusal.number, refusal.place),
    }
}

/// "For each query it prints place, rows found and postings scored on one line, then each row's document and score on a
/// line; single spaces, no blank lines."
fn printed_answers(image: &[u8], sheet: &[u32]) -> Result<String, Refusal> {
    let index = judge_image(image, &DOCUMENT_01.image)?;
    let queries = judge_sheet(sheet, index.lists.len(), &DOCUMENT_01.sheet)?;
    let mut text = String::new();
    for query in &queries {
        let answer = answer(&Question::new(&index, query, &DOCUMENT_01.search));
        text += &format!("{} {} {}\n", answer.place, answer.rows.len(), answer.postings_scored);
        for row in &answer.rows {
            text += &format!("{} {}\n", row.document, row.score);
        }
    }
    Ok(text)
}
