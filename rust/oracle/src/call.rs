//! The whole call: the image, then the sheet, then the room, then each query in "its own stretch of the answer row,
//! which starts where the previous one ended". "A refusal writes nothing."

use crate::judge::judge_image;
use crate::outcome::{Outcome, refuse};
use crate::query::Query;
use crate::rules::Rules;
use crate::search::{Answer, Question, answer};
use crate::sheet::judge_sheet;

/// Judges image and sheet, fills the row, and says how it went.
pub fn call(image: &[u8], sheet: &[u32], row: &mut [u32], rules: &Rules) -> Outcome {
    let index = judge_image(image, &rules.image)?;
    let queries = judge_sheet(sheet, index.lists.len(), &rules.sheet)?;
    let needed = queries.iter().map(stretch_length).sum();
    if !(rules.sheet.row_holds)(needed, row.len()) {
        return refuse(15, needed);
    }
    let mut start = 0;
    for query in &queries {
        let end = start + stretch_length(query);
        let answer = answer(&Question::new(&index, query, &rules.search));
        write_stretch(&mut row[start..end], &answer, rules);
        start = end;
    }
    Ok(needed)
}

/// "Each query fills exactly 3 + 2k numbers".
pub fn stretch_length(query: &Query) -> usize {
    3 + 2 * query.k
}

/// "place, rows found, postings scored, then document and score for each row, then zeros up to k rows".
fn write_stretch(stretch: &mut [u32], answer: &Answer, rules: &Rules) {
    if rules.sheet.fills_with_zeros {
        stretch.fill(0);
    }
    stretch[0] = answer.place;
    stretch[1] = answer.rows.len() as u32;
    stretch[2] = answer.postings_scored as u32;
    for (pair, row) in stretch[3..].chunks_exact_mut(2).zip(&answer.rows) {
        pair[0] = row.document;
        pair[1] = row.score as u32;
    }
}
