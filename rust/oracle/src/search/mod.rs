//! Answering a query by the definitions of "Scores, costs and the place", document by document.

mod answer;
mod ceilings;
mod costs;
mod ranked;
mod scores;
mod visits;

pub use answer::{Answer, answer};
pub use ceilings::Ceilings;
pub use costs::{all_terms_cost, plain_cost, pruned_cost};
pub use ranked::{Ranked, Row};
pub use scores::Question;
pub use visits::{Visit, boundaries};
