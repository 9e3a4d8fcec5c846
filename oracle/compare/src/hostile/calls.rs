//! Calls of all exported functions with any numbers, lengths and contents.

use oracle::calls::{self, GroupingNumbers, KMeansNumbers, Range};
use oracle::cases::PlaceCase;
use oracle::cases::{ClosureBytesCase, GroupingCase, KMeansCase, LabelBytesCase, LabelCase};
use oracle::random::Random;

use super::{any_float, any_number, draws, results, Floats, Mood, ENOUGH};
use crate::proved::{Compared, ACCEPTED_ON};
use crate::tally::{Need, Tally};

/// Products that a call may cost as a rule, and once in a while.
const COST: u64 = 60_000;
const HIGH_COST: u64 = 4_000_000;

/// Cells that a slice may have, as a rule and once in a while.
const CELLS: u128 = 5_000;
const MOST_CELLS: u128 = 300_000;

/// What one call may cost and how its lengths are chosen.
pub(super) struct Means {
    cost: u64,
    cells: u128,
    odd_lengths: bool,
}

impl Means {
    pub(super) fn new(random: &mut Random) -> Self {
        let high = random.once_in(500);
        Self {
            cost: if high { HIGH_COST } else { COST },
            cells: if high { MOST_CELLS } else { CELLS },
            odd_lengths: random.once_in(5),
        }
    }

    /// Mostly the product of the numbers.
    pub(super) fn length(&self, random: &mut Random, numbers: &[u32]) -> usize {
        let product = numbers
            .iter()
            .fold(1u128, |product, &number| product * u128::from(number));
        self.near(random, product)
    }

    /// Mostly this length. One that is too large to lend becomes what 32 or 16 bits keep of it, which fits where it is taken in so
    /// few.
    pub(super) fn near(&self, random: &mut Random, length: u128) -> usize {
        let exact = [u128::MAX, u32::MAX.into(), u16::MAX.into()]
            .into_iter()
            .map(|kept| length & kept)
            .find(|&length| length <= self.cells)
            .unwrap_or(3) as usize;
        if !self.odd_lengths || random.once_in(2) {
            return exact;
        }
        match random.below(6) {
            0 => 0,
            1 => exact + 1,
            2 => exact.saturating_sub(1),
            3 => exact / 2,
            4 => 2 * exact + 1,
            _ => random.below(200) as usize,
        }
    }

    fn bytes(&self, random: &mut Random, numbers: &[u32]) -> Vec<u8> {
        let length = self.length(random, numbers);
        let floats = Floats::new(random).many(random, length.div_ceil(4));
        let mut bytes: Vec<u8> = floats.iter().flat_map(|f| f.to_le_bytes()).collect();
        bytes.truncate(length);
        bytes
    }

    fn floats(&self, random: &mut Random, numbers: &[u32]) -> Vec<f32> {
        let length = self.length(random, numbers);
        Floats::new(random).many(random, length)
    }

    /// What costs too much is refused before it is begun.
    fn work_fits(&self, random: &mut Random, cost: u64) -> bool {
        cost <= self.cost && !(self.odd_lengths && random.once_in(4))
    }
}

fn label_bytes(random: &mut Random) -> LabelBytesCase {
    let mood = Mood::new(random, 2);
    let means = Means::new(random);
    let dim = mood.number(random, calls::DIM, 8);
    let k = mood.number(random, calls::K, 8);
    LabelBytesCase {
        dim,
        k,
        row: means.bytes(random, &[4, dim]),
        centroids: means.bytes(random, &[4, k, dim]),
        result_bytes: means.length(random, &[2]),
    }
}

fn closure_bytes(random: &mut Random) -> ClosureBytesCase {
    let mood = Mood::new(random, 2);
    let means = Means::new(random);
    let dim = mood.number(random, calls::DIM, 8);
    let count = mood.number(random, calls::CENTROID_COUNT, 8);
    ClosureBytesCase {
        dim,
        count,
        max_replicas: random.next_u32() as u16 >> random.below(16),
        epsilon: any_float(random),
        vector: means.bytes(random, &[4, dim]),
        centroids: means.bytes(random, &[4, count, dim]),
        result_bytes: means.length(random, &[2, count.wrapping_add(1)]),
    }
}

fn label_rows(random: &mut Random) -> LabelCase {
    let mood = Mood::new(random, 3);
    let means = Means::new(random);
    let rows = mood.number(random, calls::ROWS, 30);
    let dim = mood.number(random, calls::DIM, 8);
    let k = mood.number(random, calls::K, 40);
    LabelCase {
        rows,
        dim,
        k,
        values: means.floats(random, &[rows, dim]),
        centroids: means.floats(random, &[k, dim]),
        label_cells: means.length(random, &[rows]),
    }
}

fn place_rows(random: &mut Random) -> PlaceCase {
    let labelling = label_rows(random);
    let means = Means::new(random);
    PlaceCase {
        distance_cells: means.length(random, &[labelling.rows]),
        labelling,
    }
}

/// The product, as large as it can be told.
fn product(numbers: &[u32]) -> u64 {
    let times = |product: u64, &number: &u32| product.saturating_mul(number.into());
    numbers.iter().fold(1, times)
}

fn kmeans(random: &mut Random) -> KMeansCase {
    let mood = Mood::new(random, 7);
    let means = Means::new(random);
    let mut number = |range: Range, usual: u32| mood.number(random, range, usual);
    let numbers = KMeansNumbers {
        rows: number(calls::KMEANS_ROWS, 30),
        dim: number(calls::DIM, 6),
        k: number(calls::K, 5),
        iterations: number(calls::ITERATIONS, 6),
        restarts: number(calls::RESTARTS, 3),
        points_per_centroid: number(calls::POINTS_PER_CENTROID, 8),
        block: number(calls::BLOCK, 40),
        spherical: 0,
    };
    let cost = product(&[
        numbers.rows,
        numbers.dim,
        numbers.k,
        numbers.iterations,
        numbers.restarts,
    ]);
    let mut case = KMeansCase {
        numbers,
        values: means.floats(random, &[numbers.rows, numbers.dim]),
        draws: draws(random),
        work_fits: means.work_fits(random, cost),
        label_cells: means.length(random, &[numbers.rows]),
        centroid_cells: means.length(random, &[numbers.k, numbers.dim]),
    };
    case.numbers.spherical = any_number(random);
    case
}

fn grouping(random: &mut Random) -> GroupingCase {
    let mood = Mood::new(random, 6);
    let means = Means::new(random);
    let mut number = |range: Range, usual: u32| mood.number(random, range, usual);
    let mut numbers = GroupingNumbers {
        rows: number(calls::ROWS, 24),
        dim: number(calls::DIM, 5),
        size_limit: number(calls::SIZE_LIMIT, 16),
        branching: number(calls::K, 5),
        budget: number(calls::SPLIT_BUDGET, 12),
        weight: 0.0,
        spherical: 0,
    };
    numbers.weight = any_float(random);
    if random.once_in(2) {
        // Numbers by which most rows are parted, so that splits are met as often as refusals.
        numbers.size_limit = numbers.rows / 2 + 1;
        numbers.branching = random.between(2, 3);
    }
    let one = product(&[100, numbers.rows, numbers.dim, numbers.branching]);
    let affordable = means.cost / one.max(1);
    if numbers.budget <= calls::SPLIT_BUDGET.high {
        numbers.budget = numbers.budget.min(affordable as u32);
    }
    let mut case = GroupingCase {
        numbers,
        values: means.floats(random, &[numbers.rows, numbers.dim]),
        draws: draws(random),
        work_fits: means.work_fits(random, 0),
        order_cells: means.length(random, &[numbers.rows]),
        end_cells: means.length(random, &[numbers.rows]),
        mean_cells: means.length(random, &[numbers.rows, numbers.dim]),
    };
    case.numbers.spherical = any_number(random);
    case
}

const LABEL_NEEDS: [Need; 5] = [
    ("accepted", 50),
    ("refused 1", 50),
    ("refused 2", 50),
    ("strict: accepted", 50),
    ("strict: refused 9", 50),
];
const CLOSURE_NEEDS: [Need; 4] = [
    ("accepted", 50),
    ("refused 1", 50),
    ("refused 2", 50),
    ("refused 5", 10),
];
const KMEANS_NEEDS: [Need; 8] = [
    ("accepted", 50),
    ("refused 1", 50),
    ("refused 2", 50),
    ("refused 3", 10),
    ("refused 4", 10),
    ("strict: accepted", 50),
    ("strict: refused 9", 50),
    (ACCEPTED_ON, 50),
];
const GROUPING_NEEDS: [Need; 9] = [
    ("accepted", 50),
    ("refused 1", 50),
    ("refused 2", 50),
    ("refused 4", 10),
    ("refused 6", 10),
    ("refused 7", 10),
    ("strict: accepted", 50),
    ("strict: refused 9", 10),
    (ACCEPTED_ON, 50),
];

fn run<C: Compared>(
    seed: u64,
    count: u64,
    needs: &[Need],
    make: fn(&mut Random) -> C,
    add: fn(&mut Tally, &str, &C),
) -> Tally {
    let name = format!("hostile {}", C::NAME);
    let mut tally = Tally::default();
    for index in 0..count {
        let case = make(&mut Random::new(seed, 94, index));
        add(
            &mut tally,
            &format!("hostile, seed {seed} index {index}"),
            &case,
        );
    }
    if count >= ENOUGH {
        tally.need(&name, needs);
    }
    tally.report(&name);
    tally
}

/// How many kinds of case there are, and how many functions: those that label have two ways.
pub const KINDS: usize = 9;
pub const FUNCTIONS: usize = KINDS + 5;

/// `count` calls of each function.
pub fn compare(seed: u64, count: u64) -> [Tally; KINDS] {
    [
        run(seed, count, &LABEL_NEEDS, label_bytes, Tally::add_both),
        run(seed, count, &CLOSURE_NEEDS, closure_bytes, Tally::add),
        run(seed, count, &LABEL_NEEDS, label_rows, Tally::add_both),
        run(seed, count, &LABEL_NEEDS, place_rows, Tally::add_both),
        run(seed, count, &KMEANS_NEEDS, kmeans, Tally::add_both),
        run(seed, count, &GROUPING_NEEDS, grouping, Tally::add_both),
        run(
            seed,
            count,
            &results::WRITE_NEEDS,
            results::write,
            Tally::add,
        ),
        run(
            seed,
            count,
            &results::NUMBERS_NEEDS,
            results::numbers,
            Tally::add,
        ),
        run(seed, count, &results::READ_NEEDS, results::read, Tally::add),
    ]
}
