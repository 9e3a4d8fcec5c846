//! From rows of readings to answers: the engine's calls, what they were asked with, and what their refusals mean.

pub mod batch_file;
pub mod cells;
pub mod digest;
pub mod draws;
pub mod grouping;
pub mod listing;
pub mod listing_program;
mod little_endian;
pub mod nearest;
pub mod refusals;
pub mod report;
pub mod result_file;
pub mod settings;
pub mod warnings;
