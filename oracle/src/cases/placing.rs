//! Cases of labelling with distances.

use super::{wrong_length, Case, LabelCase, TwoWays, STALE_CELL, STALE_FLOAT};
use crate::calls::placing;
use crate::random::Random;
use crate::refusal::{Mode, Refusal};

#[derive(Clone, Debug)]
pub struct PlaceCase {
    pub labelling: LabelCase,
    pub distance_cells: usize,
}

#[derive(Clone, Debug, PartialEq, Eq)]
pub struct PlaceOutcome {
    /// How many rows are unplaced, or the refusal.
    pub answer: Result<u32, Refusal>,
    pub labels: Vec<u16>,
    /// As they are, bit by bit: none is ever NaN.
    pub distances: Vec<u32>,
}

impl PlaceOutcome {
    pub fn new(answer: Result<u32, Refusal>, labels: Vec<u16>, distances: &[f32]) -> Self {
        Self {
            answer,
            labels,
            distances: distances
                .iter()
                .map(|distance| distance.to_bits())
                .collect(),
        }
    }
}

impl PlaceCase {
    /// As those of labelling; a distance of 0 is what an unplaced row must not have.
    pub fn unplaced_kinds(&self, outcome: &PlaceOutcome) -> Vec<&'static str> {
        let Ok(unplaced) = outcome.answer else {
            return vec![];
        };
        let mut kinds = self.labelling.unplaced_kinds(&outcome.labels, unplaced);
        if unplaced > 0 && outcome.distances.contains(&0) {
            kinds.push("unplaced rows beside a distance of 0");
        }
        kinds
    }
}

impl From<LabelCase> for PlaceCase {
    fn from(labelling: LabelCase) -> Self {
        let distance_cells = labelling.label_cells;
        Self {
            labelling,
            distance_cells,
        }
    }
}

impl Case for PlaceCase {
    type Outcome = PlaceOutcome;
    const NAME: &'static str = "placing";

    fn generate(seed: u64, index: u64) -> Self {
        let random = &mut Random::new(seed, 8, index);
        let mut case = Self::from(LabelCase::any(random));
        if random.once_in(12) {
            case.distance_cells = wrong_length(random, case.distance_cells);
        }
        case
    }

    fn built() -> Vec<Self> {
        LabelCase::built().into_iter().map(Self::from).collect()
    }

    fn run(&self) -> PlaceOutcome {
        self.run_in(Mode::OldWay)
    }

    fn number(outcome: &PlaceOutcome) -> u32 {
        outcome.answer.err().map_or(0, Refusal::number)
    }
}

impl TwoWays for PlaceCase {
    fn run_in(&self, mode: Mode) -> PlaceOutcome {
        let case = &self.labelling;
        let mut labels = vec![STALE_CELL; case.label_cells];
        let mut distances = vec![STALE_FLOAT; self.distance_cells];
        let answer = placing(
            mode,
            case.rows,
            case.dim,
            case.k,
            &case.values,
            &case.centroids,
            &mut labels,
            &mut distances,
        );
        PlaceOutcome::new(answer, labels, &distances)
    }

    fn unplaced(outcome: &PlaceOutcome) -> Option<u32> {
        outcome.answer.ok()
    }
}
