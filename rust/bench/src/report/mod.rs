//! What the program prints: the table of times, the table of growth, the table of instructions.

mod growth;
mod instructions;
mod layout;
mod times;

pub use growth::growth;
pub use instructions::{instructions, one_call};
pub use times::times;
