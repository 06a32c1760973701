//! What the comparison, the replayed list and the benchmarks share.
pub mod crate_side;
pub mod grammar;
pub mod groups;
pub mod inputs;
pub mod rng;
