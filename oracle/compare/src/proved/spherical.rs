//! K-means and grouping with `spherical` on.

use oracle::cases::{Case, GroupingOutcome, KMeansOutcome};
use oracle::cases::{SphericalCase, SphericalGroupingCase, ON, SHOWS};
use oracle::refusal::Mode;

use super::{strict_kind, BothWays, Compared, Proved};
use crate::tally::{number_kind, Need};

/// The kinds, told from those of cases with it off.
fn spherical(kinds: Vec<&str>) -> impl Iterator<Item = String> + '_ {
    kinds.into_iter().map(|kind| format!("spherical: {kind}"))
}

/// The kind of the strict answer, and whether the setting shows in it; how the case is made is told with the old way.
fn strict_kinds(number: u32, mut kinds: Vec<&str>) -> Vec<String> {
    kinds.retain(|kind| [ON, SHOWS].contains(kind));
    let kinds = std::iter::once(number_kind(number)).chain(spherical(kinds));
    kinds.map(|kind| strict_kind(&kind)).collect()
}

impl Compared for SphericalCase {
    const NEEDS: &'static [Need] = &[
        ("accepted", 1_000),
        ("refused 1", 100),
        ("refused 2", 100),
        ("refused 3", 100),
        ("refused 4", 100),
        ("unplaced rows", 100),
        ("spherical: on", 3_000),
        ("spherical: other answers with it off", 1_000),
        ("spherical: number 0", 100),
        ("spherical: number 1", 100),
        ("spherical: number 2", 100),
        ("spherical: number 256", 100),
        ("spherical: number 4294967295", 100),
        ("spherical: gain-only rows", 100),
        ("spherical: one scale for all rows", 100),
        ("spherical: a scale for each row", 100),
        ("spherical: a scale for one row", 100),
        ("spherical: rows of zeros", 100),
        ("spherical: norms around the smallest", 100),
        ("spherical: norms around the largest", 100),
        ("spherical: values that are not finite", 100),
        ("spherical: a few rows again and again", 100),
        ("spherical: rows that are all equal", 50),
        ("spherical: one iteration", 100),
        ("spherical: several restarts", 100),
        ("spherical: as many clusters as rows", 100),
        ("spherical: settled before the last iteration", 100),
        ("spherical: a centroid of zeros", 100),
        ("spherical: a centroid of zeros for an infinite norm", 50),
        ("spherical: a centroid with -0.0", 10),
        ("spherical: a centroid whose squares vanish", 50),
        ("spherical: a centroid off the sphere", 50),
        ("spherical: a centroid with a NaN and a number", 50),
        ("strict: accepted", 1_000),
        ("strict: refused 9", 100),
        ("strict: spherical: on", 3_000),
        ("strict: spherical: other answers with it off", 1_000),
    ];

    fn proved(&self) -> Proved<KMeansOutcome> {
        self.case.proved()
    }

    fn kinds(&self, outcome: &KMeansOutcome) -> Vec<String> {
        let mut kinds = Compared::kinds(&self.case, outcome);
        kinds.extend(spherical(self.kinds(Mode::OldWay, outcome)));
        kinds
    }
}

impl BothWays for SphericalCase {
    fn proved_in(&self, mode: Mode) -> Proved<KMeansOutcome> {
        self.case.proved_in(mode)
    }

    fn strict_kinds(&self, _old: &KMeansOutcome, strict: &KMeansOutcome) -> Vec<String> {
        strict_kinds(Self::number(strict), self.kinds(Mode::Strict, strict))
    }
}

impl Compared for SphericalGroupingCase {
    const NEEDS: &'static [Need] = &[
        ("accepted", 1_000),
        ("refused 1", 50),
        ("refused 2", 50),
        ("refused 4", 50),
        ("refused 6", 50),
        ("refused 7", 50),
        ("several splits", 100),
        ("some rows not training", 5),
        ("groups changed by balancing", 100),
        ("unplaced rows", 100),
        ("spherical: on", 3_000),
        ("spherical: other answers with it off", 1_000),
        ("spherical: number 0", 100),
        ("spherical: number 1", 100),
        ("spherical: number 2", 100),
        ("spherical: number 256", 100),
        ("spherical: number 4294967295", 100),
        ("spherical: gain-only rows", 100),
        ("spherical: one scale for all rows", 100),
        ("spherical: a scale for each row", 100),
        ("spherical: a scale for one row", 100),
        ("spherical: rows of zeros", 100),
        ("spherical: norms around the smallest", 100),
        ("spherical: norms around the largest", 50),
        ("spherical: values that are not finite", 50),
        ("spherical: a few rows again and again", 50),
        ("strict: accepted", 1_000),
        ("strict: refused 9", 100),
        ("strict: spherical: on", 3_000),
        ("strict: spherical: other answers with it off", 1_000),
    ];

    fn proved(&self) -> Proved<GroupingOutcome> {
        self.case.proved()
    }

    fn kinds(&self, outcome: &GroupingOutcome) -> Vec<String> {
        let mut kinds = Compared::kinds(&self.case, outcome);
        kinds.extend(spherical(self.kinds(Mode::OldWay, outcome)));
        kinds
    }
}

impl BothWays for SphericalGroupingCase {
    fn proved_in(&self, mode: Mode) -> Proved<GroupingOutcome> {
        self.case.proved_in(mode)
    }

    fn strict_kinds(&self, _old: &GroupingOutcome, strict: &GroupingOutcome) -> Vec<String> {
        strict_kinds(Self::number(strict), self.kinds(Mode::Strict, strict))
    }
}
