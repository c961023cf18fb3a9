//! The library against document 01's examples and against the oracle; the program against the oracle; and the
//! comparison itself against deliberate errors. How to run them stands at the head of the oracle's `lib.rs`.

mod boundaries;
mod coverage;
mod edges;
mod mutants;
mod paper;
mod printing;
mod properties;
mod seeds;
mod tested;
