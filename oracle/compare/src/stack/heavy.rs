//! Calls that go every way through the exported functions, the largest ones among them. A function of the library has no recursion and
//! only arrays of fixed lengths, so what it takes depends on its way and not on what it reads.

use oracle::batch::{MAX_FILE_BYTES, TRAILER_BYTES};
use oracle::calls::{GroupingNumbers, KMeansNumbers};
use oracle::cases::{file_of, BatchCase, Case, ClosureBytesCase, ClosureCase, GroupingCase};
use oracle::cases::{KMeansCase, LabelBytesCase, LabelCase, PlaceCase};
use oracle::cases::{ReadResultCase, ResultNumbersCase, WriteResultCase};
use oracle::random::Random;

use crate::timing::{rows_around, values};

const SEED: u64 = 1;

/// How many cases are generated: refusals of every number and every kind of value are among them.
const GENERATED: u64 = 400;

/// The built cases, generated ones and these.
fn and<C: Case>(largest: Vec<C>) -> Vec<C> {
    let generated = (0..GENERATED).map(|index| C::generate(SEED, index));
    let built = C::built().into_iter();
    built.chain(generated).chain(largest).collect()
}

fn random() -> Random {
    Random::new(SEED, 97, 0)
}

pub fn label_bytes() -> Vec<LabelBytesCase> {
    let largest = LabelCase::of(&mut random(), 1, 64, 64);
    and(vec![LabelBytesCase::from(&largest)])
}

pub fn closure_bytes() -> Vec<ClosureBytesCase> {
    let mut largest = ClosureCase::of(&mut random(), 64, 64);
    largest.max_replicas = u16::MAX;
    and(vec![ClosureBytesCase::from(&largest)])
}

fn largest_labellings() -> [LabelCase; 3] {
    let shapes = [(4_096, 64, 64), (4_095, 3, 16), (4_096, 64, 1)];
    shapes.map(|(rows, dim, k)| LabelCase::of(&mut random(), rows, dim, k))
}

pub fn label_rows() -> Vec<LabelCase> {
    and(largest_labellings().into())
}

pub fn place_rows() -> Vec<PlaceCase> {
    and(largest_labellings().map(PlaceCase::from).into())
}

/// The most rows: around 25 centres, or all alike.
fn most_rows(dim: usize, alike: bool) -> Vec<f32> {
    match alike {
        true => vec![0.1; 4_096 * dim],
        false => rows_around(&mut random(), 4_096, dim, 25),
    }
}

fn draws(count: usize) -> Vec<u32> {
    let mut random = random();
    (0..count).map(|_| random.next_u32()).collect()
}

fn largest_kmeans(alike: bool, points_per_centroid: u32, spherical: u32) -> KMeansCase {
    KMeansCase {
        numbers: KMeansNumbers {
            rows: 4_096,
            dim: 64,
            k: 64,
            iterations: 2,
            restarts: 2,
            points_per_centroid,
            block: 1_000,
            spherical,
        },
        values: most_rows(64, alike),
        draws: draws(4_096),
        work_fits: true,
        label_cells: 4_096,
        centroid_cells: 64 * 64,
    }
}

pub fn kmeans() -> Vec<KMeansCase> {
    let mut refused = largest_kmeans(false, 4_096, 0);
    refused.work_fits = false;
    let mut cases = vec![refused];
    for spherical in [0, u32::MAX] {
        cases.extend([
            largest_kmeans(false, 4_096, spherical),
            largest_kmeans(false, 1, spherical),
            largest_kmeans(true, 4_096, spherical),
        ]);
    }
    and(cases)
}

/// Two ways to part the most rows: into few parts of many readings, and into many parts.
fn largest_grouping(dim: u32, branching: u32, alike: bool, spherical: u32) -> GroupingCase {
    GroupingCase {
        numbers: GroupingNumbers {
            rows: 4_096,
            dim,
            size_limit: 3_000,
            branching,
            weight: 0.25,
            budget: 8,
            spherical,
        },
        values: most_rows(dim as usize, alike),
        draws: draws(4_096),
        work_fits: true,
        order_cells: 4_096,
        end_cells: 4_096,
        mean_cells: 4_096 * dim as usize,
    }
}

pub fn grouping() -> Vec<GroupingCase> {
    let mut refused = largest_grouping(64, 2, false, 0);
    refused.work_fits = false;
    let mut cases = vec![refused];
    for spherical in [0, u32::MAX] {
        cases.extend([
            largest_grouping(64, 2, false, spherical),
            largest_grouping(64, 2, true, spherical),
            largest_grouping(4, 64, false, spherical),
        ]);
    }
    and(cases)
}

/// A file of the most bytes whose rows are split.
fn longest_file(rows: u32, dim: u32, branching: u32, draw_count: usize) -> BatchCase {
    let numbers = GroupingNumbers {
        rows,
        dim,
        size_limit: 100,
        branching,
        weight: 0.25,
        budget: 4_096,
        spherical: 0,
    };
    let values = values(&mut random(), (rows * dim) as usize);
    let bare = 4 * (values.len() + draw_count) + TRAILER_BYTES;
    let remark = vec![b'r'; MAX_FILE_BYTES - bare];
    BatchCase {
        file: file_of(&remark, &numbers, &values, &draws(draw_count)),
    }
}

pub fn files() -> Vec<BatchCase> {
    and(vec![
        longest_file(4_096, 3, 2, 4_000),
        longest_file(4_096, 1, 64, 4_096),
        longest_file(255, 64, 16, 55),
    ])
}

/// The most rows in one group, and in so many that all cells are used.
fn largest_results() -> [WriteResultCase; 2] {
    [1, 4_096].map(|groups| WriteResultCase::of(&mut random(), 4_096, 64, groups))
}

fn largest_result_files() -> [ReadResultCase; 2] {
    largest_results().map(|case| ReadResultCase::fitting(case.run().file, &case.numbers))
}

pub fn written() -> Vec<WriteResultCase> {
    and(largest_results().into())
}

pub fn told() -> Vec<ResultNumbersCase> {
    and(largest_result_files().map(ResultNumbersCase::from).into())
}

pub fn read() -> Vec<ReadResultCase> {
    and(largest_result_files().into())
}
