//! The built program, run as an operator runs it: what it prints, and how it ends.

mod batch;
mod common;
mod group;
mod help;
mod list;
mod nearest;
mod page;
mod result;
