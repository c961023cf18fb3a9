//! The comparisons and numbers of document 01, each in one named place. The oracle is written with `DOCUMENT_01`;
//! the tests exchange one rule at a time for a wrong one, and ask that the comparison notices.

mod image;
mod search;
mod sheet;

pub use image::ImageRules;
pub use search::SearchRules;
pub use sheet::SheetRules;

/// All rules of a call.
#[derive(Clone, Copy)]
pub struct Rules {
    pub image: ImageRules,
    pub sheet: SheetRules,
    pub search: SearchRules,
}

/// The rules as document 01 writes them.
pub const DOCUMENT_01: Rules =
    Rules { image: image::DOCUMENT_01, sheet: sheet::DOCUMENT_01, search: search::DOCUMENT_01 };
