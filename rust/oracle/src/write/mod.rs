//! Writing images and sheets for tests and measurements: any block sizes, and any width that holds the gaps.

mod bits;
mod cut;
mod fields;
mod image;
mod sheet;

pub use bits::{BitWriter, put_field};
pub use cut::{cut, smallest_width};
pub use fields::{At, Field};
pub use image::{BlockDraft, ImageDraft, ListDraft};
pub use sheet::{QueryDraft, SheetDraft};
