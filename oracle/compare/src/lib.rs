//! The proved library held against the oracle: what the programs `compare`, `fuzz` and `benchmark` share.

pub mod files;
pub mod hostile;
pub mod proved;
pub mod roots;
pub mod stack;
pub mod tally;
pub mod timing;
mod weights;
