//! The settings of a grouping, with document 01's ranges.

use std::ops::RangeInclusive;

pub const LIMIT: RangeInclusive<i64> = 0..=4_096;
pub const BRANCHING: RangeInclusive<i64> = 1..=64;
pub const BUDGET: RangeInclusive<i64> = 0..=8_192;

#[derive(Clone, Copy, Debug, PartialEq)]
pub struct Settings {
    /// The most meters in a family.
    pub limit: u32,
    /// Parts of a split.
    pub branching: u32,
    /// Parts are balanced where it is above zero.
    pub weight: f32,
    /// The most splits.
    pub budget: u32,
}
