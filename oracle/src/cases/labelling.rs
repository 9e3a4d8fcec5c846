//! Cases of labelling.

use super::unplaced::{row_kinds, unplace};
use super::values::{copy_some, Source};
use super::{length_of, outside, size, usual_dim, wrong_length, Case, Spoils, TwoWays, STALE_CELL};
use crate::calls::{labelling, DIM, K, ROWS};
use crate::random::Random;
use crate::refusal::{Mode, Refusal};

#[derive(Clone, Debug)]
pub struct LabelCase {
    pub rows: u32,
    pub dim: u32,
    pub k: u32,
    pub values: Vec<f32>,
    pub centroids: Vec<f32>,
    pub label_cells: usize,
}

#[derive(Clone, Debug, PartialEq, Eq)]
pub struct LabelOutcome {
    /// How many rows are unplaced, or the refusal.
    pub answer: Result<u32, Refusal>,
    pub labels: Vec<u16>,
}

impl LabelCase {
    /// A case of these numbers with every length as it should be.
    pub fn of(random: &mut Random, rows: u32, dim: u32, k: u32) -> Self {
        let source = Source::new(random, dim);
        let values = source.values(random, length_of(rows, dim));
        let mut centroids = source.values(random, length_of(k, dim));
        if random.once_in(3) {
            copy_some(random, &values, &mut centroids, dim);
        }
        Self {
            rows,
            dim,
            k,
            values,
            centroids,
            label_cells: length_of(rows, 1),
        }
    }

    pub(super) fn any(random: &mut Random) -> Self {
        let spoils = Spoils::new(random);
        let mut rows = size(random, 0, 60, ROWS.high, 200);
        let mut dim = usual_dim(random);
        let mut k = size(random, 1, 12, K.high, 12);
        if spoils.once_in(random, 8) {
            match random.below(3) {
                0 => rows = outside(random, ROWS),
                1 => dim = outside(random, DIM),
                _ => k = outside(random, K),
            }
        }
        let mut case = Self::of(random, rows, dim, k);
        if spoils.once_in(random, 8) {
            case.spoil_a_length(random);
        }
        if random.once_in(8) {
            case.unplace(random);
        }
        case
    }

    /// Some rows, some centroids or both take a value that places nothing.
    fn unplace(&mut self, random: &mut Random) {
        let which = random.below(3);
        let few = random.between(1, 4);
        if which != 0 {
            unplace(random, &mut self.values, self.dim, few);
        }
        if which != 1 {
            unplace(random, &mut self.centroids, self.dim, few);
        }
    }

    /// What an accepted call of so many unplaced rows shows of them.
    pub fn unplaced_kinds(&self, labels: &[u16], unplaced: u32) -> Vec<&'static str> {
        let mut kinds = row_kinds(&self.values, self.dim);
        if self.centroids.iter().any(|value| value.is_nan()) {
            kinds.push("a NaN centroid");
        }
        let zeros = labels.iter().filter(|&&label| label == 0).count();
        if unplaced > 0 && zeros > unplaced as usize {
            kinds.push("unplaced rows beside family 0");
        }
        if unplaced > 0 && unplaced == self.rows {
            kinds.push("all rows unplaced");
        }
        kinds
    }

    fn spoil_a_length(&mut self, random: &mut Random) {
        match random.below(3) {
            0 => {
                let length = wrong_length(random, self.values.len());
                self.values.resize(length, 1.0);
            }
            1 => {
                let length = wrong_length(random, self.centroids.len());
                self.centroids.resize(length, 1.0);
            }
            _ => self.label_cells = wrong_length(random, self.label_cells),
        }
    }

    fn given(values: &[f32], centroids: &[f32]) -> Self {
        Self {
            rows: values.len() as u32,
            dim: 1,
            k: centroids.len() as u32,
            values: values.to_vec(),
            centroids: centroids.to_vec(),
            label_cells: values.len(),
        }
    }
}

impl Case for LabelCase {
    type Outcome = LabelOutcome;
    const NAME: &'static str = "labelling";

    fn generate(seed: u64, index: u64) -> Self {
        Self::any(&mut Random::new(seed, 1, index))
    }

    fn built() -> Vec<Self> {
        vec![
            // One centroid twice, a NaN before a match, and a NaN row (P5, P6, P7).
            Self::given(&[1.0], &[1.0, 1.0]),
            Self::given(&[2.0], &[f32::NAN, 2.0]),
            Self::given(&[f32::NAN], &[1.0, 2.0]),
            // Squared differences would say 1 and 0; both scores are 0.
            Self::given(&[4_097.0], &[4_096.0, 4_097.0]),
            // The second score would be -16 if it were not brought to zero.
            Self::given(&[8_195.0], &[8_195.0, 8_194.0]),
        ]
    }

    fn run(&self) -> LabelOutcome {
        self.run_in(Mode::OldWay)
    }

    fn number(outcome: &LabelOutcome) -> u32 {
        outcome.answer.err().map_or(0, Refusal::number)
    }
}

impl TwoWays for LabelCase {
    fn run_in(&self, mode: Mode) -> LabelOutcome {
        let mut labels = vec![STALE_CELL; self.label_cells];
        let answer = labelling(
            mode,
            self.rows,
            self.dim,
            self.k,
            &self.values,
            &self.centroids,
            &mut labels,
        );
        LabelOutcome { answer, labels }
    }

    fn unplaced(outcome: &LabelOutcome) -> Option<u32> {
        outcome.answer.ok()
    }
}
