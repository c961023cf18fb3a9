//! Random cases by seed: images with ties, empty lists, blocks of all sizes and widths; sheets of all modes with
//! budgets on every edge; and damage aimed at each refusal of document 01's table.

mod blocks;
mod budgets;
mod case;
mod damage;
mod image_faults;
mod images;
mod random;
mod sheet_faults;
mod sheets;

pub use blocks::draft_list;
pub use budgets::cases_at_boundaries;
pub use case::Case;
pub use damage::Damage;
pub use images::{draft_image, draft_image_of};
pub use random::Random;
pub use sheets::draft_query;
