//! The slices that calls work in; docs/BUFFERS.md has their lengths.

/// The slice that k-means works in.
#[derive(Clone, Debug, PartialEq)]
pub struct KMeansWork {
    pub training: Vec<f32>,
}

impl KMeansWork {
    /// A slice of the right length, with this value in it.
    pub fn new(rows: usize, dim: usize, value: f32) -> Self {
        Self {
            training: vec![value; rows * dim],
        }
    }

    /// All bits of all cells are zero.
    pub fn is_zero(&self) -> bool {
        is_zero(&self.training)
    }
}

/// The slices that grouping works in.
#[derive(Clone, Debug, PartialEq)]
pub struct GroupWork {
    pub gathered: Vec<f32>,
    pub training: Vec<f32>,
}

impl GroupWork {
    /// Slices of the right lengths, with this value in them.
    pub fn new(rows: usize, dim: usize, value: f32) -> Self {
        Self {
            gathered: vec![value; rows * dim],
            training: vec![value; rows * dim],
        }
    }

    /// All bits of all cells are zero.
    pub fn is_zero(&self) -> bool {
        is_zero(&self.gathered) && is_zero(&self.training)
    }
}

fn is_zero(values: &[f32]) -> bool {
    values.iter().all(|value| value.to_bits() == 0)
}
