//! Cases of the exported functions on bytes.

use super::{
    outside, size, usual_dim, wrong_length, Case, ClosureCase, LabelCase, TwoWays, STALE_BYTE,
};
use crate::calls::{closure_bytes, label_bytes, CENTROID_COUNT, DIM, K};
use crate::random::Random;
use crate::refusal::Mode;

#[derive(Clone, Debug)]
pub struct LabelBytesCase {
    pub dim: u32,
    pub k: u32,
    pub row: Vec<u8>,
    pub centroids: Vec<u8>,
    pub result_bytes: usize,
}

#[derive(Clone, Debug)]
pub struct ClosureBytesCase {
    pub dim: u32,
    pub count: u32,
    pub max_replicas: u16,
    pub epsilon: f32,
    pub vector: Vec<u8>,
    pub centroids: Vec<u8>,
    pub result_bytes: usize,
}

#[derive(Clone, Debug, PartialEq, Eq)]
pub struct BytesOutcome {
    /// 0 or the refusal.
    pub number: u32,
    pub result: Vec<u8>,
}

fn bytes_of(values: &[f32]) -> Vec<u8> {
    values.iter().flat_map(|v| v.to_le_bytes()).collect()
}

/// Three lengths, one of which becomes wrong: by some bytes, or by some whole elements.
fn spoil_a_length(
    random: &mut Random,
    first: &mut Vec<u8>,
    second: &mut Vec<u8>,
    result: &mut usize,
) {
    let whole = random.once_in(2);
    let mut spoilt = |exact: usize, element: usize| match whole {
        true => element * wrong_length(random, exact / element),
        false => wrong_length(random, exact),
    };
    let (a, b, c) = (
        spoilt(first.len(), 4),
        spoilt(second.len(), 4),
        spoilt(*result, 2),
    );
    match random.below(3) {
        0 => first.resize(a, 0),
        1 => second.resize(b, 0),
        _ => *result = c,
    }
}

impl From<&LabelCase> for LabelBytesCase {
    fn from(case: &LabelCase) -> Self {
        Self {
            dim: case.dim,
            k: case.k,
            row: bytes_of(&case.values),
            centroids: bytes_of(&case.centroids),
            result_bytes: 2,
        }
    }
}

impl Case for LabelBytesCase {
    type Outcome = BytesOutcome;
    const NAME: &'static str = "label bytes";

    fn generate(seed: u64, index: u64) -> Self {
        let random = &mut Random::new(seed, 5, index);
        let mut dim = usual_dim(random);
        let mut k = size(random, 1, 12, K.high, 8);
        if random.once_in(8) {
            match random.below(2) {
                0 => dim = outside(random, DIM),
                _ => k = outside(random, K),
            }
        }
        let mut case = Self::from(&LabelCase::of(random, 1, dim, k));
        if random.once_in(6) {
            spoil_a_length(
                random,
                &mut case.row,
                &mut case.centroids,
                &mut case.result_bytes,
            );
        }
        case
    }

    fn built() -> Vec<Self> {
        LabelCase::built().iter().map(Self::from).collect()
    }

    fn run(&self) -> BytesOutcome {
        self.run_in(Mode::OldWay)
    }

    fn number(outcome: &BytesOutcome) -> u32 {
        outcome.number
    }
}

impl TwoWays for LabelBytesCase {
    fn run_in(&self, mode: Mode) -> BytesOutcome {
        let mut result = vec![STALE_BYTE; self.result_bytes];
        let number = label_bytes(
            mode,
            self.dim,
            self.k,
            &self.row,
            &self.centroids,
            &mut result,
        );
        BytesOutcome { number, result }
    }

    fn unplaced(_: &BytesOutcome) -> Option<u32> {
        None
    }
}

impl From<&ClosureCase> for ClosureBytesCase {
    fn from(case: &ClosureCase) -> Self {
        Self {
            dim: case.dim,
            count: case.count,
            max_replicas: case.max_replicas,
            epsilon: case.epsilon,
            vector: bytes_of(&case.vector),
            centroids: bytes_of(&case.centroids),
            result_bytes: 2 * case.cells + 2,
        }
    }
}

impl Case for ClosureBytesCase {
    type Outcome = BytesOutcome;
    const NAME: &'static str = "closure bytes";

    fn generate(seed: u64, index: u64) -> Self {
        let random = &mut Random::new(seed, 6, index);
        let mut dim = usual_dim(random);
        let mut count = size(random, 0, 12, CENTROID_COUNT.high, 8);
        if random.once_in(8) {
            match random.below(2) {
                0 => dim = outside(random, DIM),
                _ => count = outside(random, CENTROID_COUNT),
            }
        }
        let mut case = Self::from(&ClosureCase::of(random, dim, count));
        if random.once_in(6) {
            spoil_a_length(
                random,
                &mut case.vector,
                &mut case.centroids,
                &mut case.result_bytes,
            );
        }
        case
    }

    fn built() -> Vec<Self> {
        ClosureCase::built().iter().map(Self::from).collect()
    }

    fn run(&self) -> BytesOutcome {
        let mut result = vec![STALE_BYTE; self.result_bytes];
        let number = closure_bytes(
            self.dim,
            self.count,
            self.max_replicas,
            self.epsilon,
            &self.vector,
            &self.centroids,
            &mut result,
        );
        BytesOutcome { number, result }
    }

    fn number(outcome: &BytesOutcome) -> u32 {
        outcome.number
    }
}
