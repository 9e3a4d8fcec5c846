//! Grouping.

use engine::exported::{self, GroupNumbers, GroupWork};
use oracle::calls::GroupingAccepted;
use oracle::cases::{Case, GroupingCase, GroupingOutcome, STALE_CELL, STALE_FLOAT};
use oracle::random::Random;
use oracle::refusal::Mode;

use super::ACCEPTED_ON;
use super::{answer, spoil, strict_kinds, wrapped, wrong_kind, BothWays, Compared, Proved};
use crate::tally::{number_kind, Need};
use crate::weights;

/// The work slices, in the order of docs/BUFFERS.md.
const SLICES: [&str; 2] = ["gathered", "training"];

/// Which slice of a case whose work slices don't fit is wrong, and whether it is too short.
fn wrong_slice(case: &GroupingCase) -> (usize, bool) {
    let name = (case.values.len() as u64) << 32 | case.draws.len() as u64;
    let random = &mut Random::new(name, 93, case.numbers.rows.into());
    let which = random.below(2) as usize;
    (which, case.numbers.rows > 0 && random.once_in(2))
}

/// Work slices full of stale values; one of them is too long or too short where the case says that they don't fit.
fn work_of(case: &GroupingCase) -> GroupWork {
    let rows = case.numbers.rows.min(5_000) as usize;
    let dim = case.numbers.dim.min(100) as usize;
    let mut work = GroupWork::new(rows, dim, STALE_FLOAT);
    if !case.work_fits {
        let (which, shorter) = wrong_slice(case);
        spoil([&mut work.gathered, &mut work.training][which], shorter);
    }
    work
}

/// Whether the groups would be others with nothing balanced.
fn balancing_shows(case: &GroupingCase, outcome: &GroupingOutcome) -> bool {
    let mut plain = case.clone();
    plain.numbers.weight = 0.0;
    case.numbers.weight > 0.0 && plain.run() != *outcome
}

fn accepted_kinds(
    case: &GroupingCase,
    outcome: &GroupingOutcome,
    accepted: &GroupingAccepted,
) -> Vec<String> {
    let splits = accepted.splits;
    if splits == 0 {
        return vec!["no split".into()];
    }
    let mut kinds = vec![weights::kind_of(case.numbers.weight).to_string()];
    if splits > 1 {
        kinds.push("several splits".into());
    }
    if case.numbers.rows > 256 * case.numbers.branching {
        kinds.push("some rows not training".into());
    }
    if outcome
        .means
        .iter()
        .any(|&bits| f32::from_bits(bits).is_nan())
    {
        kinds.push("a NaN mean".into());
    }
    if balancing_shows(case, outcome) {
        kinds.push("groups changed by balancing".into());
    }
    let shown = [case.pass_kinds(splits), case.unplaced_kinds(accepted)].concat();
    kinds.extend(shown.into_iter().map(String::from));
    kinds
}

impl Compared for GroupingCase {
    const NEEDS: &'static [Need] = &[
        ("accepted", 500),
        ("refused 1", 50),
        ("refused 2", 50),
        ("refused 4", 50),
        ("refused 6", 50),
        ("refused 7", 50),
        (weights::KINDS[0], 10),
        (weights::KINDS[1], 10),
        (weights::KINDS[2], 10),
        (weights::KINDS[3], 10),
        (weights::KINDS[4], 10),
        (weights::KINDS[5], 10),
        (weights::KINDS[6], 10),
        (weights::KINDS[7], 10),
        (weights::KINDS[8], 10),
        ("no split", 10),
        ("several splits", 100),
        ("some rows not training", 10),
        ("a NaN mean", 10),
        ("groups changed by balancing", 50),
        ("gathered too short", 1),
        ("gathered too long", 1),
        ("training too short", 1),
        ("training too long", 1),
        ("more than two passes", 100),
        ("a draw that wraps", 50),
        ("a NaN row", 50),
        ("an infinite row", 50),
        ("a row whose norm overflows", 50),
        ("unplaced rows", 100),
        ("one NaN row, several splits and more than one unplaced", 10),
        ("more unplaced than there are rows", 10),
        ("strict: accepted", 500),
        ("strict: refused 1", 50),
        ("strict: refused 2", 50),
        ("strict: refused 4", 50),
        ("strict: refused 6", 50),
        ("strict: refused 7", 50),
        ("strict: refused 9", 100),
        ("strict: refused 7, with a budget of 0 and a NaN row", 5),
        (
            "strict: refused 6, with fewer rows than branching and a NaN row",
            5,
        ),
        ("strict: accepted within the limit, with a NaN row", 10),
        ("strict: refused 9 after a split that places all rows", 10),
        (
            "strict: refused 9 where the old way is refused by 6 or 7 later",
            50,
        ),
    ];

    fn proved(&self) -> Proved<GroupingOutcome> {
        self.proved_in(Mode::OldWay)
    }

    fn kinds(&self, outcome: &GroupingOutcome) -> Vec<String> {
        let number = Self::number(outcome);
        let mut kinds = vec![number_kind(number)];
        if let Ok(accepted) = outcome.answer {
            kinds.extend(accepted_kinds(self, outcome, &accepted));
        }
        if number == 0 && self.numbers.spherical != 0 {
            kinds.push(ACCEPTED_ON.into());
        }
        if number == 2 && !self.work_fits {
            let (which, shorter) = wrong_slice(self);
            kinds.push(wrong_kind(SLICES[which], shorter));
        }
        kinds
    }
}

impl BothWays for GroupingCase {
    fn proved_in(&self, mode: Mode) -> Proved<GroupingOutcome> {
        let mut work = work_of(self);
        let mut order = vec![STALE_CELL; self.order_cells];
        let mut ends = vec![STALE_CELL; self.end_cells];
        let mut means = vec![STALE_FLOAT; self.mean_cells];
        let numbers = &self.numbers;
        let told = exported::group(
            wrapped(mode),
            GroupNumbers {
                rows: numbers.rows,
                dim: numbers.dim,
                limit: numbers.size_limit,
                branching: numbers.branching,
                weight: numbers.weight,
                budget: numbers.budget,
                spherical: numbers.spherical,
            },
            &self.draws,
            &self.values,
            &mut order,
            &mut ends,
            &mut means,
            &mut work,
        );
        let blank = told.groups == 0 && told.splits == 0 && told.unplaced == 0;
        let accepted = GroupingAccepted {
            groups: told.groups,
            splits: told.splits,
            unplaced: told.unplaced,
        };
        Proved {
            outcome: GroupingOutcome::new(answer(told.number, accepted), order, ends, &means),
            tidy: work.is_zero() && (told.number == 0 || blank),
        }
    }

    fn strict_kinds(&self, old: &GroupingOutcome, strict: &GroupingOutcome) -> Vec<String> {
        strict_kinds(Self::number(strict), self.strict_kinds(old, strict))
    }
}
