//! The result file: its writer, its readers, and both of them across with the oracle's.

use engine::exported::{self, ResultTold};
use oracle::cases::{Case, ReadOutcome, ReadResultCase, ResultNumbersCase};
use oracle::cases::{ResultTripCase, TripOutcome, WriteOutcome, WriteResultCase};
use oracle::cases::{STALE_BITS, STALE_BYTE, STALE_CELL};
use oracle::refusal::Refusal;
use oracle::results::ResultNumbers;

use super::{answer, kinds, Compared, Proved, Shifted};
use crate::tally::{number_kind, Need};

/// The kind of the answer, and for what it was given where one thing was made wrong.
fn wrong_kinds(number: u32, wrong: &[&str]) -> Vec<String> {
    let kind = number_kind(number);
    match wrong {
        [] => vec![kind],
        [one] => vec![format!("{kind}: {one}"), kind],
        _ => vec![format!("{kind}: the first of several"), kind],
    }
}

/// What a reader told, and whether a refusal told its number alone.
fn told(told: ResultTold) -> (Result<ResultNumbers, Refusal>, bool) {
    let numbers = ResultNumbers {
        rows: told.numbers.rows,
        dim: told.numbers.dim,
        groups: told.numbers.groups,
    };
    let is_blank = [numbers.rows, numbers.dim, numbers.groups] == [0; 3];
    (answer(told.number, numbers), told.number == 0 || is_blank)
}

impl Compared for WriteResultCase {
    const NEEDS: &'static [Need] = &[
        ("accepted", 2_000),
        ("refused 1", 500),
        ("refused 2", 1_000),
        ("refused 10", 2_000),
        ("refused 1: rows out of range", 100),
        ("refused 1: dim out of range", 100),
        ("refused 1: the first of several", 100),
        ("refused 2: another length of the row order", 100),
        ("refused 2: another length of the ends", 100),
        ("refused 2: another length of the means", 100),
        ("refused 2: another length of the file", 100),
        ("refused 2: groups above rows in a file of before", 100),
        ("refused 2: groups that wrap", 100),
        ("refused 2: the first of several", 100),
        ("refused 10: a row twice", 100),
        ("refused 10: a row out of range", 100),
        ("refused 10: a first end of 0", 100),
        ("refused 10: ends alike", 100),
        ("refused 10: ends that fall", 100),
        ("refused 10: a last end other than rows", 100),
        ("refused 10: a group left out", 100),
        ("refused 10: groups above rows", 100),
        ("refused 10: an unused end that is not blank", 100),
        ("refused 10: an unused mean of -0.0", 100),
        ("refused 10: an unused mean that is not blank", 100),
    ];

    fn proved(&self) -> Proved<WriteOutcome> {
        // The file may stand at any address; what is before it is not the callee's.
        let by = self.numbers.dim as usize % 4;
        let mut file = vec![STALE_BYTE; by + self.file_bytes];
        let number = exported::write_result(
            exported::ResultNumbers {
                rows: self.numbers.rows,
                dim: self.numbers.dim,
                groups: self.numbers.groups,
            },
            &self.order,
            &self.ends,
            &self.means,
            &mut file[by..],
        );
        let is_left = file.drain(..by).all(|byte| byte == STALE_BYTE);
        Proved {
            outcome: WriteOutcome {
                answer: answer(number, ()),
                file,
            },
            tidy: is_left,
        }
    }

    fn kinds(&self, outcome: &WriteOutcome) -> Vec<String> {
        wrong_kinds(Self::number(outcome), &self.wrong)
    }
}

impl Compared for ReadResultCase {
    const NEEDS: &'static [Need] = &[
        ("accepted", 2_000),
        ("refused 2", 1_000),
        ("refused 10", 2_000),
        ("accepted: a byte changed", 50),
        ("accepted: a bit changed", 50),
        ("refused 2: another length of the row order", 100),
        ("refused 2: another length of the ends", 100),
        ("refused 2: another length of the means", 100),
        ("refused 10: the first of several", 100),
        ("refused 10: a byte changed", 100),
        ("refused 10: a bit changed", 100),
        ("refused 10: a byte short", 100),
        ("refused 10: a byte long", 100),
        ("refused 10: a part of a file", 100),
        ("refused 10: another start", 100),
        ("refused 10: another number", 100),
        ("refused 10: a number that wraps", 100),
        ("refused 10: other numbers of the same length", 100),
        ("refused 10: any bytes", 100),
        ("refused 10: rows out of range", 100),
        ("refused 10: dim out of range", 100),
        ("refused 10: a row twice", 100),
        ("refused 10: a row out of range", 100),
        ("refused 10: a first end of 0", 100),
        ("refused 10: ends alike", 100),
        ("refused 10: ends that fall", 100),
        ("refused 10: a last end other than rows", 100),
        ("refused 10: a group left out", 100),
        ("refused 10: groups above rows", 100),
    ];

    fn proved(&self) -> Proved<ReadOutcome> {
        let file = Shifted::new(&self.file, self.end_cells % 4);
        let mut order = vec![STALE_CELL; self.order_cells];
        let mut ends = vec![STALE_CELL; self.end_cells];
        let mut means = vec![STALE_BITS; self.mean_cells];
        let (answer, tidy) = told(exported::read_result(
            file.bytes(),
            &mut order,
            &mut ends,
            &mut means,
        ));
        Proved {
            outcome: ReadOutcome {
                answer,
                order,
                ends,
                means,
            },
            tidy,
        }
    }

    fn kinds(&self, outcome: &ReadOutcome) -> Vec<String> {
        wrong_kinds(Self::number(outcome), &self.wrong)
    }
}

impl Compared for ResultNumbersCase {
    const NEEDS: &'static [Need] = &[
        ("accepted", 2_000),
        ("refused 10", 2_000),
        ("refused 10: a byte short", 100),
        ("refused 10: a byte long", 100),
        ("refused 10: another start", 100),
        ("refused 10: another number", 100),
        ("refused 10: a number that wraps", 100),
        ("refused 10: other numbers of the same length", 100),
        ("refused 10: rows out of range", 100),
        ("refused 10: dim out of range", 100),
        ("refused 10: a row twice", 100),
        ("refused 10: a row out of range", 100),
        ("refused 10: a first end of 0", 100),
        ("refused 10: ends alike", 100),
        ("refused 10: ends that fall", 100),
        ("refused 10: a last end other than rows", 100),
        ("refused 10: groups above rows", 100),
    ];

    fn proved(&self) -> Proved<Self::Outcome> {
        let file = Shifted::new(&self.file, self.file.len() / 4 % 4);
        let (outcome, tidy) = told(exported::result_numbers(file.bytes()));
        Proved { outcome, tidy }
    }

    fn kinds(&self, outcome: &Self::Outcome) -> Vec<String> {
        wrong_kinds(Self::number(outcome), &self.wrong)
    }
}

/// What the proved library answered; a cell that it should have left is no part of a trip.
fn outcome<C: Compared>(case: &C) -> C::Outcome {
    case.proved().outcome
}

impl Compared for ResultTripCase {
    const NEEDS: &'static [Need] = &[
        ("accepted", 5_000),
        ("no rows", 100),
        ("one group", 500),
        ("a group for each row", 500),
        ("unused cells", 500),
        ("a NaN of unusual bits", 500),
        ("a mean of -0.0", 100),
        ("cells of a call of grouping", 100),
    ];

    /// Written by the one side and read by the other, both ways, and by the proved library alone.
    fn proved(&self) -> Proved<TripOutcome> {
        let trip = self.by(outcome, Case::run);
        let others = [self.by(Case::run, outcome), self.by(outcome, outcome)];
        let comes_back = others.iter().all(|other| *other == trip) && self.comes_back(&trip);
        Proved {
            outcome: trip,
            tidy: comes_back,
        }
    }

    fn kinds(&self, outcome: &TripOutcome) -> Vec<String> {
        kinds(Self::number(outcome), self.kinds())
    }
}
