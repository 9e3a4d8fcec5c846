//! Safe calls of the proved library. Lengths are not checked here: the callee refuses what does not fit. Stack is: a call that takes
//! more than its thread has left is made on another.

pub mod exported;
mod placement;
mod result_file;
pub mod stack;
mod work;

/// The version of these wrappers and of the library that they were built with.
pub const VERSION: &str = env!("CARGO_PKG_VERSION");
