//! Cases of closure.

use super::values::{copy_some, Flavour, Source};
use super::{length_of, outside, size, usual_dim, wrong_length, Case, Spoils, STALE_CELL};
use crate::calls::{closure, CENTROID_COUNT, DIM};
use crate::random::Random;
use crate::refusal::Refusal;

const EPSILONS: [f32; 16] = [
    0.0,
    0.0,
    -0.0,
    0.1,
    1.0,
    1.0,
    10.0,
    -0.5,
    -1.0,
    -2.0,
    -3.0,
    1e25,
    f32::MAX,
    f32::NAN,
    f32::INFINITY,
    f32::NEG_INFINITY,
];

#[derive(Clone, Debug)]
pub struct ClosureCase {
    pub dim: u32,
    pub count: u32,
    pub max_replicas: u16,
    pub epsilon: f32,
    pub vector: Vec<f32>,
    pub centroids: Vec<f32>,
    pub cells: usize,
}

#[derive(Clone, Debug, PartialEq, Eq)]
pub struct ClosureOutcome {
    pub answer: Result<u16, Refusal>,
    pub cells: Vec<u16>,
}

impl ClosureCase {
    /// A case of these numbers with every length as it should be.
    pub fn of(random: &mut Random, dim: u32, count: u32) -> Self {
        let source = Source::new(random, dim);
        let mut vector = source.values(random, length_of(dim, 1));
        if source.flavour == Flavour::Permuted {
            vector.fill(0.1);
        }
        let mut centroids = source.values(random, length_of(count, dim));
        if random.once_in(4) {
            copy_some(random, &vector, &mut centroids, dim);
        }
        let any = random.next_u32() as u16;
        let epsilon = random.float(-1.0, 3.0);
        let listed = random.choose(&EPSILONS);
        Self {
            dim,
            count,
            max_replicas: random.choose(&[0, 1, 2, 3, count as u16, any, 65_535, 65_535]),
            epsilon: random.choose(&[listed, listed, epsilon]),
            vector,
            centroids,
            cells: length_of(count, 1),
        }
    }

    fn spoil_a_length(&mut self, random: &mut Random) {
        match random.below(3) {
            0 => {
                let length = wrong_length(random, self.vector.len());
                self.vector.resize(length, 1.0);
            }
            1 => {
                let length = wrong_length(random, self.centroids.len());
                self.centroids.resize(length, 1.0);
            }
            _ => self.cells = wrong_length(random, self.cells),
        }
    }

    fn simple(vector: f32, centroids: &[f32], epsilon: f32, max_replicas: u16) -> Self {
        Self {
            dim: 1,
            count: centroids.len() as u32,
            max_replicas,
            epsilon,
            vector: vec![vector],
            centroids: centroids.to_vec(),
            cells: centroids.len(),
        }
    }
}

impl Case for ClosureCase {
    type Outcome = ClosureOutcome;
    const NAME: &'static str = "closure";

    fn generate(seed: u64, index: u64) -> Self {
        let random = &mut Random::new(seed, 4, index);
        let spoils = Spoils::new(random);
        let mut dim = usual_dim(random);
        let mut count = size(random, 0, 12, CENTROID_COUNT.high, 8);
        if spoils.once_in(random, 8) {
            match random.below(2) {
                0 => dim = outside(random, DIM),
                _ => count = outside(random, CENTROID_COUNT),
            }
        }
        let mut case = Self::of(random, dim, count);
        if spoils.once_in(random, 8) {
            case.spoil_a_length(random);
        }
        case
    }

    fn built() -> Vec<Self> {
        let families = [2.0, 1.0, -1.0];
        vec![
            // P8 with both epsilons, P9, and no centroids.
            Self::simple(0.0, &families, 0.0, 3),
            Self::simple(0.0, &families, 1.0, 3),
            Self::simple(0.0, &families, 0.0, 0),
            Self::simple(0.0, &[], 0.0, 3),
            // One centroid at NaN distance lists nothing; two are refused, 0 replicas or not.
            Self::simple(0.0, &[f32::NAN], 0.0, 3),
            Self::simple(0.0, &[f32::NAN, 1.0], 0.0, 0),
            // A threshold that overflows, one that is zero times infinity, one of infinities.
            Self::simple(0.0, &[1e19, 1.5e19], 1e10, 3),
            Self::simple(0.0, &[0.0, 1.0], f32::INFINITY, 3),
            Self::simple(0.0, &[1e30, -1e30], -1.0, 3),
            Self::simple(0.0, &[1e30, -1e30], 0.0, 3),
        ]
    }

    fn run(&self) -> ClosureOutcome {
        let mut cells = vec![STALE_CELL; self.cells];
        let answer = closure(
            self.dim,
            self.count,
            self.max_replicas,
            self.epsilon,
            &self.vector,
            &self.centroids,
            &mut cells,
        );
        ClosureOutcome { answer, cells }
    }

    fn number(outcome: &ClosureOutcome) -> u32 {
        outcome.answer.err().map_or(0, Refusal::number)
    }
}
