//! "Header, 64 bits: version (4, value 1), number of terms T (12), number of documents N (24), length of the image in
//! bytes (24)." Refusals 1, 2 and 3.

use super::Image;
use crate::outcome::{Refusal, refuse};

pub struct Header {
    pub terms: usize,
    pub documents: u32,
}

pub fn judge_header(image: &Image) -> Result<Header, Refusal> {
    let rules = image.rules;
    let bytes = image.bytes.len();
    if bytes < rules.least_bytes {
        return refuse(1, 0);
    }
    if image.field(0, 4) != rules.version {
        return refuse(2, 0);
    }
    let terms = image.field(4, 12) as usize;
    let documents = image.field(16, 24);
    let length = image.field(40, 24) as usize;
    if !(rules.length_is_true)(length, bytes) || !(rules.directory_fits)(8 + 8 * terms, bytes) {
        return refuse(3, 0);
    }
    Ok(Header { terms, documents })
}
