//! A grouping in the cells that the engine fills and reads: row numbers, ends and means, each slice with room for as many families as rows.

use super::report::Family;

#[derive(Clone, Debug, PartialEq)]
pub struct Cells {
    pub dim: usize,
    pub groups: usize,
    /// Row numbers, family after family.
    pub order: Vec<u16>,
    /// Running totals of the families' sizes.
    pub ends: Vec<u16>,
    /// Of each family `dim`.
    pub means: Vec<f32>,
}

impl Cells {
    /// For the engine to fill.
    pub fn new(rows: usize, dim: usize) -> Self {
        Self {
            dim,
            groups: 0,
            order: vec![0; rows],
            ends: vec![0; rows],
            means: vec![0.0; rows * dim],
        }
    }

    pub fn rows(&self) -> usize {
        self.order.len()
    }

    /// Each family's rows stand between two ends, and its mean at its number.
    pub fn families(&self) -> Vec<Family> {
        let mut start = 0;
        let mut families = Vec::new();
        let means = self.means.chunks_exact(self.dim);
        for (end, mean) in self.ends[..self.groups].iter().zip(means) {
            let end = usize::from(*end);
            families.push(Family {
                rows: self.order[start..end]
                    .iter()
                    .map(|row| usize::from(*row))
                    .collect(),
                mean: mean.to_vec(),
            });
            start = end;
        }
        families
    }
}

#[cfg(test)]
pub mod tests {
    use super::*;

    /// Three rows of two readings in two families.
    pub fn cells() -> Cells {
        Cells {
            dim: 2,
            groups: 2,
            order: vec![2, 0, 1],
            ends: vec![2, 3, 65_535],
            means: vec![0.5, 0.1, -0.25, 3.0, 0.0, 0.0],
        }
    }

    #[test]
    fn families_stand_between_ends() {
        let family = |rows: &[usize], mean: [f32; 2]| Family {
            rows: rows.to_vec(),
            mean: mean.to_vec(),
        };
        let families = [family(&[2, 0], [0.5, 0.1]), family(&[1], [-0.25, 3.0])];
        assert_eq!(cells().families(), families);
        assert_eq!(cells().rows(), 3);
        assert_eq!(Cells::new(0, 64).families(), []);
    }
}
