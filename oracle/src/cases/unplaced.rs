//! Rows that no score places, and what a case shows of them. Each kind is there for a mistake that
//! cases without it would miss.

use crate::random::Random;

pub const NAN_ROW: &str = "a NaN row";
pub const INFINITE_ROW: &str = "an infinite row";
pub const OVERFLOWING_ROW: &str = "a row whose norm overflows";

/// Values that leave a row unplaced, whatever the centroids are: the square of the last overflows.
const UNPLACING: [f32; 6] = [
    f32::NAN,
    f32::NAN,
    f32::NAN,
    f32::INFINITY,
    f32::NEG_INFINITY,
    2e19,
];

/// Puts such a value into `count` vectors, or fewer where one is taken twice.
pub fn unplace(random: &mut Random, values: &mut [f32], dim: u32, count: u32) {
    let value = random.choose(&UNPLACING);
    let vectors = values.len() as u32 / dim.max(1);
    for _ in 0..count.min(vectors) {
        let vector = random.below(vectors) * dim;
        values[(vector + random.below(dim)) as usize] = value;
    }
}

/// Readings whose square is finite, and twice the square of which is not, with some below.
const LARGE: [f32; 6] = [1.5e19, -1.5e19, 1.5e19, -1.5e19, 1.1e19, 0.0];

/// Gives every vector one such reading and else zeros. What places such a row is a centroid near zero, as the mean of rows of either
/// sign is: so one restart, or one split, may place a row that another does not.
pub fn make_large(random: &mut Random, values: &mut [f32], dim: u32) {
    for vector in values.chunks_mut(dim.clamp(1, 64) as usize) {
        let at = random.below(vector.len() as u32) as usize;
        vector.fill(0.0);
        vector[at] = random.choose(&LARGE);
    }
}

/// Why a row is unplaced whatever the centroids are, where it is.
pub fn row_kind(row: &[f32]) -> Option<&'static str> {
    let norm = row.iter().fold(0.0, |norm, value| norm + value * value);
    if row.iter().any(|value| value.is_nan()) {
        Some(NAN_ROW)
    } else if row.iter().any(|value| value.is_infinite()) {
        Some(INFINITE_ROW)
    } else {
        (norm == f32::INFINITY).then_some(OVERFLOWING_ROW)
    }
}

/// The kinds of all rows, each once.
pub fn row_kinds(values: &[f32], dim: u32) -> Vec<&'static str> {
    let mut kinds: Vec<_> = values
        .chunks_exact(dim as usize)
        .filter_map(row_kind)
        .collect();
    kinds.sort_unstable();
    kinds.dedup();
    kinds
}
