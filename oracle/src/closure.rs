//! `src/mstg/closure.rs` of the source, without the unused `apply_rng_rule`; where the source
//! would panic the call is refused.

use crate::math::l2_distance_sqr;
use crate::refusal::Refusal;

pub struct ClosureAssigner {
    pub epsilon: f32,
    pub max_replicas: usize,
}

impl ClosureAssigner {
    pub fn new(epsilon: f32, max_replicas: usize) -> Self {
        Self {
            epsilon,
            max_replicas,
        }
    }

    pub fn assign(&self, vector: &[f32], centroids: &[&[f32]]) -> Result<Vec<usize>, Refusal> {
        if centroids.is_empty() {
            return Ok(vec![]);
        }

        let mut by_distance: Vec<(usize, f32)> = centroids
            .iter()
            .enumerate()
            .map(|(index, centroid)| (index, l2_distance_sqr(vector, centroid)))
            .collect();

        // The source's comparison panics on these; a single distance is never compared.
        if by_distance.len() > 1 && by_distance.iter().any(|entry| entry.1.is_nan()) {
            return Err(Refusal::NanDistance);
        }
        // The sort is stable, so equal distances stay in the order of their indices.
        by_distance.sort_by(|near, far| near.1.partial_cmp(&far.1).unwrap());

        let closest = by_distance[0].1;
        let factor = 1.0 + self.epsilon;
        let threshold = closest * factor * factor;

        Ok(by_distance
            .iter()
            .take(self.max_replicas)
            .filter(|entry| entry.1 <= threshold)
            .map(|entry| entry.0)
            .collect())
    }
}
