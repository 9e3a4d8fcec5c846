//! Cases of grouping.

use super::unplaced::{make_large, row_kind, row_kinds, unplace, NAN_ROW};
use super::values::{Flavour, Source};
use super::{
    all_float_bits, draw_list, length_of, outside, pass_kinds, size, usual_dim, wrong_draw_list,
    wrong_length, Case, Spoils, TwoWays, STALE_CELL, STALE_FLOAT,
};
use crate::calls::{
    grouping, GroupingAccepted, GroupingLent, GroupingNumbers, DIM, K, ROWS, SIZE_LIMIT,
    SPLIT_BUDGET,
};
use crate::random::Random;
use crate::refusal::{Mode, Refusal};

/// Products that a stubborn group's splits may cost together.
const COST: u32 = 2_000_000;

/// Where 9 meets the other refusals of grouping, and where it does not come.
const SEVEN_FIRST: &str = "refused 7, with a budget of 0 and a NaN row";
const SIX_FIRST: &str = "refused 6, with fewer rows than branching and a NaN row";
const WITHIN_LIMIT: &str = "accepted within the limit, with a NaN row";
const NINE_LATER: &str = "refused 9 after a split that places all rows";
const NINE_FIRST: &str = "refused 9 where the old way is refused by 6 or 7 later";

const WEIGHTS: [f32; 16] = [
    0.0,
    0.0,
    -0.0,
    f32::NAN,
    1e-9,
    1e-3,
    0.1,
    0.25,
    0.5,
    0.5,
    1.0,
    3.0,
    f32::MAX,
    f32::INFINITY,
    f32::NEG_INFINITY,
    -1.0,
];

#[derive(Clone, Debug)]
pub struct GroupingCase {
    pub numbers: GroupingNumbers,
    pub values: Vec<f32>,
    pub draws: Vec<u32>,
    pub work_fits: bool,
    pub order_cells: usize,
    pub end_cells: usize,
    pub mean_cells: usize,
}

#[derive(Clone, Debug, PartialEq, Eq)]
pub struct GroupingOutcome {
    pub answer: Result<GroupingAccepted, Refusal>,
    pub order: Vec<u16>,
    pub ends: Vec<u16>,
    pub means: Vec<u32>,
}

impl GroupingOutcome {
    pub fn new(
        answer: Result<GroupingAccepted, Refusal>,
        order: Vec<u16>,
        ends: Vec<u16>,
        means: &[f32],
    ) -> Self {
        Self {
            answer,
            order,
            ends,
            means: all_float_bits(means),
        }
    }
}

/// Numbers in their ranges; the budget comes last since it decides what a case costs.
pub(super) fn usual_numbers(random: &mut Random) -> GroupingNumbers {
    let rows = size(random, 0, 60, 1_200, 60);
    // Many rows are there for the sampling of training rows, which few centroids bring about.
    let (dim, branching) = match rows {
        0..=60 => (usual_dim(random), usual_branching(random, rows)),
        _ => (random.between(1, 3), random.choose(&[1, 2, 2, 3])),
    };
    let size_limit = {
        let few = random.small(0, 8);
        let any = random.between(rows.min(branching), rows.max(branching));
        random.choose(&[few, rows / 2, rows.saturating_sub(1), any, any, any])
    };
    let weight = {
        let near = near_whole(random, rows / branching);
        let listed = random.choose(&WEIGHTS);
        random.choose(&[listed, listed, near])
    };
    let budget = random.choose(&[0, 1, 2, 3, 5, 10, 30, 30, 30, 30, 30, 30]);
    GroupingNumbers {
        rows,
        dim,
        size_limit,
        branching,
        weight,
        budget: budget.min(affordable_splits(rows, dim, branching)),
        spherical: 0,
    }
}

fn usual_branching(random: &mut Random, rows: u32) -> u32 {
    let near = (rows + random.below(2)).clamp(1, K.high);
    let any = random.between(1, K.high);
    random.choose(&[1, 2, 2, 2, 2, 2, 3, 3, 3, 4, 4, 5, 8, near, any])
}

/// A weight for which the allowance of the first split is a whole number, or nearly.
fn near_whole(random: &mut Random, share: u32) -> f32 {
    let share = share.max(1);
    let ratio = random.between(1, share) as f32 / share as f32;
    f32::from_bits(ratio.to_bits() + random.below(3) - 1)
}

fn affordable_splits(rows: u32, dim: u32, branching: u32) -> u32 {
    let training = rows.min(256 * branching);
    let one = 100 * training * dim * branching;
    (COST / one.max(1)).clamp(1, SPLIT_BUDGET.high)
}

fn spoil_a_number(random: &mut Random, numbers: &mut GroupingNumbers) {
    match random.below(5) {
        0 => numbers.rows = outside(random, ROWS),
        1 => numbers.dim = outside(random, DIM),
        2 => numbers.size_limit = outside(random, SIZE_LIMIT),
        3 => numbers.branching = outside(random, K),
        _ => numbers.budget = outside(random, SPLIT_BUDGET),
    }
}

impl GroupingCase {
    pub(super) fn of(random: &mut Random, mut numbers: GroupingNumbers) -> Self {
        let source = Source::new(random, numbers.dim);
        // Splits of such rows come to an end by themselves, so the largest budget is affordable.
        let splits_well = matches!(source.flavour, Flavour::Plain | Flavour::Clustered);
        if splits_well && numbers.branching > 1 && numbers.rows <= 60 && numbers.budget == 30 {
            numbers.budget = SPLIT_BUDGET.high;
        }
        let values = source.values(random, length_of(numbers.rows, numbers.dim));
        Self::given(numbers, values, draw_list(random))
    }

    /// Numbers, lengths and draws of which some are spoilt, and rows of which some are unplaced.
    pub(super) fn any(random: &mut Random) -> Self {
        let spoils = Spoils::new(random);
        let mut numbers = usual_numbers(random);
        if spoils.once_in(random, 12) {
            spoil_a_number(random, &mut numbers);
        }
        let mut case = Self::of(random, numbers);
        if spoils.once_in(random, 12) {
            case.spoil_a_length(random);
        }
        if spoils.once_in(random, 16) {
            case.draws = wrong_draw_list(random);
        }
        if random.once_in(6) {
            case.unplace(random);
        }
        if random.once_in(24) {
            case.make_large(random);
        }
        case
    }

    pub(super) fn given(numbers: GroupingNumbers, values: Vec<f32>, draws: Vec<u32>) -> Self {
        Self {
            numbers,
            work_fits: true,
            order_cells: length_of(numbers.rows, 1),
            end_cells: length_of(numbers.rows, 1),
            mean_cells: values.len(),
            values,
            draws,
        }
    }

    fn spoil_a_length(&mut self, random: &mut Random) {
        match random.below(5) {
            0 => {
                let length = wrong_length(random, self.values.len());
                self.values.resize(length, 1.0);
            }
            1 => self.order_cells = wrong_length(random, self.order_cells),
            2 => self.end_cells = wrong_length(random, self.end_cells),
            3 => self.mean_cells = wrong_length(random, self.mean_cells),
            _ => self.work_fits = false,
        }
    }

    /// A row or two that nothing places. Balancing puts others beside such a row, and under a small
    /// limit they are split again, that row with them.
    fn unplace(&mut self, random: &mut Random) {
        let few = random.choose(&[1, 1, 2]);
        unplace(random, &mut self.values, self.numbers.dim, few);
        if random.once_in(2) {
            self.split_far(random);
        }
    }

    /// Rows that one split places and another may not.
    fn make_large(&mut self, random: &mut Random) {
        make_large(random, &mut self.values, self.numbers.dim);
        self.split_far(random);
    }

    /// Few rows are balanced, and split up to a small limit.
    pub(super) fn split_far(&mut self, random: &mut Random) {
        if (1..=60).contains(&self.numbers.rows) {
            self.numbers.branching = random.between(2, 3);
            self.numbers.size_limit = random.between(self.numbers.branching - 1, 5);
            self.numbers.weight = random.choose(&[0.1, 0.25, 0.5, 1.0]);
            self.numbers.budget = 60;
        }
    }

    /// Readings so far from zero that some picks part nothing: with the same picks in every split
    /// the budget is spent, and on later passes through the list others part the group.
    pub fn stubborn() -> Self {
        let values = [1001.5, 1001.25, 1001.75, 1002.5, 1006.25, 1007.75];
        Self::simple(&values, 2, 2, 0.0, 20)
    }

    /// Where 9 stands: behind 7 and behind 6, nowhere within the limit, at the first split, and at the second one, whose two rows have
    /// no row of the other sign to bring their mean near zero. The last is refused by 7 in the old way.
    fn refused_by_nine() -> [Self; 6] {
        let nan = [0.0, f32::NAN, 1.0];
        let large = [1.5e19, -1.5e19, 1.5e19, -1.5e19, 1.5e19, -1.5e19];
        [
            Self::simple(&nan, 2, 2, 0.0, 0),
            Self::simple(&nan, 2, 4, 0.0, 0),
            Self::simple(&nan, 3, 2, 0.0, 9),
            Self::simple(&nan, 2, 2, 0.0, 9),
            Self::simple(&large, 1, 2, 0.5, 9),
            Self::simple(&[f32::NAN; 4], 1, 2, 0.0, 9),
        ]
    }

    /// What a call that did so many splits shows of passes through its list: each picks its centroids.
    pub fn pass_kinds(&self, splits: u32) -> Vec<&'static str> {
        pass_kinds(
            &self.draws,
            u64::from(splits) * u64::from(self.numbers.branching),
        )
    }

    /// What an accepted call of several splits or one shows of its unplaced rows.
    pub fn unplaced_kinds(&self, accepted: &GroupingAccepted) -> Vec<&'static str> {
        let dim = self.numbers.dim;
        let mut kinds = row_kinds(&self.values, dim);
        if accepted.unplaced > 0 {
            kinds.push("unplaced rows");
        }
        let rows = self.values.chunks_exact(dim as usize);
        let odd: Vec<_> = rows.filter_map(row_kind).collect();
        if accepted.splits > 1 && accepted.unplaced > 1 && odd == [NAN_ROW] {
            kinds.push("one NaN row, several splits and more than one unplaced");
        }
        if accepted.unplaced > self.numbers.rows {
            kinds.push("more unplaced than there are rows");
        }
        kinds
    }

    /// What a strict call shows of where 9 stands among the other refusals, by the outcomes of both
    /// ways.
    pub fn strict_kinds(
        &self,
        old: &GroupingOutcome,
        strict: &GroupingOutcome,
    ) -> Vec<&'static str> {
        let n = &self.numbers;
        let has_nan = || row_kinds(&self.values, n.dim).contains(&NAN_ROW);
        let mut kinds = vec![];
        match (Self::number(old), Self::number(strict)) {
            (_, 7) if n.budget == 0 && has_nan() => kinds.push(SEVEN_FIRST),
            (_, 6) if n.rows < n.branching && has_nan() => kinds.push(SIX_FIRST),
            (_, 0) if n.rows <= n.size_limit && has_nan() => kinds.push(WITHIN_LIMIT),
            (6 | 7, 9) => kinds.push(NINE_FIRST),
            _ => (),
        }
        if Self::number(strict) == 9 && self.first_split_places_all() {
            kinds.push(NINE_LATER);
        }
        kinds
    }

    /// With a budget of one split, what comes after the first is refused by another number, or is accepted.
    fn first_split_places_all(&self) -> bool {
        let mut once = self.clone();
        once.numbers.budget = 1;
        Self::number(&once.run_in(Mode::Strict)) != 9
    }

    /// Rows of one value, and draws of zero.
    pub fn simple(
        values: &[f32],
        size_limit: u32,
        branching: u32,
        weight: f32,
        budget: u32,
    ) -> Self {
        let numbers = GroupingNumbers {
            rows: values.len() as u32,
            dim: 1,
            size_limit,
            branching,
            weight,
            budget,
            spherical: 0,
        };
        Self::given(numbers, values.to_vec(), vec![0])
    }
}

impl Case for GroupingCase {
    type Outcome = GroupingOutcome;
    const NAME: &'static str = "grouping";

    fn generate(seed: u64, index: u64) -> Self {
        Self::any(&mut Random::new(seed, 3, index))
    }

    fn built() -> Vec<Self> {
        let mut cases = vec![
            // P1, P2 with and without balancing, P11, P12 and its neighbour.
            Self::simple(&[0.0, 1.0, 10.0, 11.0], 2, 2, 0.0, 4),
            Self::simple(&[3.0; 5], 4, 2, 0.0, 3),
            Self::simple(&[3.0; 5], 4, 2, 0.5, 3),
            Self::simple(&[0.0, 1.0, 2.0], 2, 4, 0.0, 0),
            Self::simple(&[0.0, 1.0, 2.0], 2, 2, 0.0, 0),
            Self::simple(&[0.0, 1.0], 2, 2, 0.0, 0),
            // No rows; a mean of 5/3; a batch whose 100 iterations differ from one and two.
            Self::simple(&[], 2, 2, 0.0, 0),
            Self::simple(&[1.0, 2.0, 2.0], 3, 2, 0.0, 0),
            Self::simple(&[0.0, 1.0, 2.0, 3.0, 7.0], 4, 2, 0.0, 1),
            // Equal rows that only balancing parts, with fewer and with more parts than the pool has rows.
            Self::simple(&[0.1; 90], 40, 2, 0.25, 90),
            Self::simple(&[0.1; 90], 40, 16, 0.25, 90),
            // The largest budget, used up by rows that never part.
            Self::simple(&[3.0; 2], 1, 2, 0.0, SPLIT_BUDGET.high),
        ];
        cases.push(Self::stubborn());
        cases.extend(Self::refused_by_nine());
        // The second split goes on with the third draw.
        let mut later = Self::simple(&[0.0, 10.0, 11.0], 1, 2, 0.0, 2);
        later.draws = vec![0, 0, 1, 0];
        cases.push(later);
        // More rows than train, with and without balancing.
        let many: Vec<f32> = (0..ROWS.high).map(|i| (i * i % 4_099) as f32).collect();
        for weight in [0.0, 0.1] {
            let mut sampled = Self::simple(&many, 1_000, 3, weight, 20);
            sampled.draws = (0..1_000u32)
                .map(|i| i.wrapping_mul(2_654_435_761))
                .collect();
            cases.push(sampled);
        }
        cases
    }

    fn run(&self) -> GroupingOutcome {
        self.run_in(Mode::OldWay)
    }

    fn number(outcome: &GroupingOutcome) -> u32 {
        outcome.answer.err().map_or(0, Refusal::number)
    }
}

impl TwoWays for GroupingCase {
    fn run_in(&self, mode: Mode) -> GroupingOutcome {
        let mut order = vec![STALE_CELL; self.order_cells];
        let mut ends = vec![STALE_CELL; self.end_cells];
        let mut means = vec![STALE_FLOAT; self.mean_cells];
        let answer = grouping(
            mode,
            &self.numbers,
            &self.values,
            &self.draws,
            self.work_fits,
            GroupingLent {
                order: &mut order,
                ends: &mut ends,
                means: &mut means,
            },
        );
        GroupingOutcome::new(answer, order, ends, &means)
    }

    fn unplaced(outcome: &GroupingOutcome) -> Option<u32> {
        outcome.answer.ok().map(|accepted| accepted.unplaced)
    }
}
