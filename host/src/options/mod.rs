//! Options that more than one command has, and what they give.

pub mod grouping;
pub mod nearest;
pub mod reading;
pub mod result_file;
pub mod shown;
pub mod written;
