//! An independent clip finder, written from document 01 alone, and its comparison with the library.
//!
//! The oracle answers in the most literal way: documents 0 to N-1 one by one, the bar by its definition over all
//! matching documents, costs by the written rule, with no cursor and no trick. It shares no line with the finder
//! it is compared with. Read it in the order of document 01: [`judge`] (the image), [`mod@sheet`], [`search`]
//! (scores, costs and the place), [`mod@call`] (the whole call), [`program`] (what `clipfind` prints). Each
//! comparison that document 01 writes stands as one named line in [`rules`].
//!
//! Beside it stand [`mod@write`] (images and sheets for tests and measurements), [`cases`] (random cases by seed) and
//! [`compare`] (running a finder beside the oracle, shrinking a mismatch and showing it).
//!
//! # Running the tests
//!
//! In the folder `rust` of the repository, once `.ci/archive` has written `target/staticlib/libfinder.a`:
//!
//! ```text
//! CLIPFIND=<path of the program clipfind> cargo test --offline --release
//! ```
//!
//! - `CLIPFINDER_LIB` names another folder that holds `libfinder.a`.
//! - `CLIPFIND` names the program; without it the tests of the program fail. A relative path starts at `rust/oracle`.
//! - `CASES_FROM` is the first seed of every test by seeds, 0 if it is not set. A mismatch tells its seed, the
//!   smallest image and sheet found that still show it, and both answers side by side; with that seed in
//!   `CASES_FROM` it is the first case compared.
//!
//! The lines with seeds, counts and mutants are shown on standard error, whether or not a test passes.
//!
//! # The soak
//!
//! Ten million cases on all cores, with a progress line after each 50,000:
//!
//! ```text
//! CASES_FROM=<any seed> cargo test --offline --release --test finder -- --ignored soak
//! ```

#![forbid(unsafe_code)]

pub mod call;
pub mod cases;
pub mod compare;
pub mod index;
pub mod judge;
pub mod outcome;
pub mod program;
pub mod query;
pub mod rules;
pub mod search;
pub mod sheet;
pub mod write;
