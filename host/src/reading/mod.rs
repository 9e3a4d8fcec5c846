//! From the bytes of a CSV file to rows of readings: cells, numbers, and which column holds serial numbers.

pub mod cells;
pub mod column;
pub mod decimal;
pub mod source;
pub mod table;
pub mod traps;
