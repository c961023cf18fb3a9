//! Making what is measured, from fixed seeds: collections, their images and sheets.

mod collection;
mod exponential;
mod sheets;
mod workload;

pub use collection::{Collection, falling};
pub use sheets::{Plan, Terms, Weights};
pub use workload::{Sheet, Workload};
