//! Judging an image: "1, 2, 3; then terms in order, each first 4, then its blocks in order (5, then its postings 6,
//! then 7), then the list's 7; then 8."

mod bits;
mod block;
mod entry;
mod header;
mod list;
mod rest;

pub use bits::Image;
pub use block::Block;

use crate::index::Index;
use crate::outcome::Refusal;
use crate::rules::ImageRules;

/// The index that an image holds, or the first fault found.
pub fn judge_image(bytes: &[u8], rules: &ImageRules) -> Result<Index, Refusal> {
    let image = Image { bytes, rules };
    let header = header::judge_header(&image)?;
    let mut due = 64 + 64 * header.terms;
    let mut lists = Vec::new();
    for term in 0..header.terms {
        let entry = entry::judge_entry(&image, &header, term, due)?;
        let (list, end) = list::judge_list(&image, &header, term, &entry, due)?;
        lists.push(list);
        due = end;
    }
    rest::judge_rest(&image, &header, due)?;
    Ok(Index { documents: header.documents, lists })
}
