//! Answers for people and programs: text, CSV, JSON and a page, the files they go to, and the sign that work goes on.

pub mod csv;
pub mod files;
pub mod json;
pub mod page;
pub mod progress;
pub mod text;
