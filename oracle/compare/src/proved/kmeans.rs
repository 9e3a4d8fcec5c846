//! K-means.

use engine::exported::{self, KMeansNumbers, KMeansWork};
use oracle::calls::KMeansAccepted;
use oracle::cases::{Case, KMeansCase, KMeansOutcome, RestartsCase, STALE_CELL, STALE_FLOAT};
use oracle::random::Random;
use oracle::refusal::Mode;

use super::ACCEPTED_ON;
use super::{answer, kinds, spoil, strict_kinds, wrapped, wrong_kind, BothWays, Compared, Proved};
use crate::tally::Need;

/// The work slice full of stale values; it is too long or too short where the case says that it doesn't fit.
fn work_of(case: &KMeansCase) -> KMeansWork {
    let rows = case.numbers.rows.min(5_000) as usize;
    let dim = case.numbers.dim.min(100) as usize;
    let mut work = KMeansWork::new(rows, dim, STALE_FLOAT);
    if !case.work_fits {
        spoil(&mut work.training, is_shorter(case));
    }
    work
}

/// Whether the work slice of a case whose work slice doesn't fit is too short.
fn is_shorter(case: &KMeansCase) -> bool {
    let name = (case.values.len() as u64) << 32 | case.draws.len() as u64;
    Random::new(name, 92, case.numbers.rows.into()).once_in(2)
}

impl Compared for KMeansCase {
    const NEEDS: &'static [Need] = &[
        ("accepted", 100),
        ("refused 1", 100),
        ("refused 2", 100),
        ("refused 3", 100),
        ("refused 4", 100),
        ("training too short", 1),
        ("training too long", 1),
        ("more than two passes", 100),
        ("a draw that wraps", 50),
        ("a NaN row", 50),
        ("an infinite row", 50),
        ("a row whose norm overflows", 50),
        ("unplaced rows", 100),
        ("strict: accepted", 100),
        ("strict: refused 1", 100),
        ("strict: refused 2", 100),
        ("strict: refused 3", 100),
        ("strict: refused 4", 100),
        ("strict: refused 9", 100),
    ];

    fn proved(&self) -> Proved<KMeansOutcome> {
        self.proved_in(Mode::OldWay)
    }

    fn kinds(&self, outcome: &KMeansOutcome) -> Vec<String> {
        let number = Self::number(outcome);
        let shown = |(_, _, unplaced)| [self.pass_kinds(), self.unplaced_kinds(unplaced)].concat();
        let mut kinds = kinds(number, outcome.answer.map_or(vec![], shown));
        if number == 0 && self.numbers.spherical != 0 {
            kinds.push(ACCEPTED_ON.into());
        }
        if number == 2 && !self.work_fits {
            kinds.push(wrong_kind("training", is_shorter(self)));
        }
        kinds
    }
}

impl BothWays for KMeansCase {
    fn proved_in(&self, mode: Mode) -> Proved<KMeansOutcome> {
        let mut work = work_of(self);
        let mut labels = vec![STALE_CELL; self.label_cells];
        let mut centroids = vec![STALE_FLOAT; self.centroid_cells];
        let numbers = &self.numbers;
        let told = exported::kmeans(
            wrapped(mode),
            KMeansNumbers {
                rows: numbers.rows,
                dim: numbers.dim,
                k: numbers.k,
                iterations: numbers.iterations,
                restarts: numbers.restarts,
                points_per_centroid: numbers.points_per_centroid,
                block: numbers.block,
                spherical: numbers.spherical,
            },
            &self.draws,
            &self.values,
            &mut labels,
            &mut centroids,
            &mut work,
        );
        let blank = told.objective.to_bits() == 0 && told.restart == 0 && told.unplaced == 0;
        let accepted = KMeansAccepted {
            objective: told.objective,
            restart: told.restart,
            unplaced: told.unplaced,
        };
        Proved {
            outcome: KMeansOutcome::new(answer(told.number, accepted), labels, &centroids),
            tidy: work.is_zero() && (told.number == 0 || blank),
        }
    }

    fn strict_kinds(&self, _old: &KMeansOutcome, strict: &KMeansOutcome) -> Vec<String> {
        strict_kinds(Self::number(strict), self.strict_kinds(strict))
    }
}

impl Compared for RestartsCase {
    const NEEDS: &'static [Need] = &[
        ("accepted", 1_000),
        ("unplaced rows", 1_000),
        ("fewer unplaced than in the last restart", 20),
        ("more unplaced than in the last restart", 20),
        ("strict: accepted", 100),
        ("strict: refused 9", 1_000),
        (
            "strict: accepted, with unplaced rows in a restart not kept",
            10,
        ),
        (
            "strict: refused 9, with none unplaced in a restart not kept",
            10,
        ),
    ];

    fn proved(&self) -> Proved<KMeansOutcome> {
        self.0.proved()
    }

    fn kinds(&self, outcome: &KMeansOutcome) -> Vec<String> {
        self.0.kinds(outcome)
    }
}

impl BothWays for RestartsCase {
    fn proved_in(&self, mode: Mode) -> Proved<KMeansOutcome> {
        self.0.proved_in(mode)
    }

    fn strict_kinds(&self, old: &KMeansOutcome, strict: &KMeansOutcome) -> Vec<String> {
        BothWays::strict_kinds(&self.0, old, strict)
    }
}
