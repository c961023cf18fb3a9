//! A small safe face of the verified clip finder.
//!
//! An index image is a row of bytes; queries come on a [`Sheet`]; [`ask`] gives one [`Answer`] for each query,
//! or the [`Refusal`] of the whole call, an error value that says in words what is wrong and where.
//! [`answer_into`] is the call itself, on rows of numbers that the caller lends.
//!
//! ```
//! use clipfinder::{Mode, Query, Sheet, ask};
//!
//! // One term and ten clips; the term's list holds clip 2 with impact 5 and clip 7 with impact 9.
//! let image = [
//!     0x10, 0x01, 0x00, 0x00, 0x0A, 0x00, 0x00, 0x19, 0x00, 0x00, 0x00, 0x80, 0x00, 0x00, 0x02, 0x09, 0x02, 0x30,
//!     0x90, 0x00, 0x00, 0x74, 0x0B, 0x02, 0x40,
//! ];
//! let mut sheet = Sheet::new();
//! sheet.push(&Query::new(Mode::Pruned, 1, 100).mention(0, 3));
//!
//! let answers = ask(&image, &sheet)?;
//! assert!(answers[0].finished);
//! assert_eq!((answers[0].rows[0].document, answers[0].rows[0].score), (7, 27));
//!
//! sheet.push(&Query::new(Mode::Plain, 1, 100).mention(1, 3));
//! let refusal = ask(&image, &sheet).unwrap_err();
//! assert_eq!(refusal.to_string(), "refused 13 at query 1: a term is not in the index");
//! # Ok::<(), clipfinder::Refusal>(())
//! ```

mod answer;
mod call;
mod refusal;
mod sheet;

pub use answer::{Answer, Row, ask};
pub use call::answer_into;
pub use refusal::Refusal;
pub use sheet::{Mention, Mode, Query, Sheet};
