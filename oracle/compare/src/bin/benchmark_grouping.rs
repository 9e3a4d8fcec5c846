//! Speed of grouping against the oracle, both in the old way, side by side in one run on one thread: ratios of medians, and of their sums.
//!
//! `benchmark_grouping [ROUNDS] [WORD..]`: all, or what has these words in its name.

use compare::timing::{as_long, rows_around, values, wanted};
use engine::exported::{self, GroupNumbers, GroupTold, GroupWork, Mode};
use oracle::calls::{self, GroupingAccepted, GroupingLent, GroupingNumbers};
use oracle::random::Random;
use oracle::refusal;

/// Whole batches, and one split of a group that is just above the limit.
const SHAPES: [(usize, usize); 4] = [(4_096, 3), (1_000, 16), (41, 3), (41, 16)];
const BRANCHINGS: [u32; 3] = [2, 16, 64];
const LIMIT: u32 = 40;
const WEIGHT: f32 = 0.25;
const BUDGET: u32 = 4_096;
const CENTRES: usize = 25;

/// What the rows look like.
#[derive(Clone, Copy, Debug)]
enum Rows {
    /// Around 25 centres.
    Clustered,
    /// Drawn from everywhere alike.
    Shapeless,
    /// Eight rows again and again: only balancing parts equal ones, and nearly all of their clusters are empty.
    Repeating,
}

/// A batch, and room for both sides' results.
struct Batch {
    numbers: GroupingNumbers,
    values: Vec<f32>,
    draws: Vec<u32>,
}

#[derive(Debug, PartialEq)]
struct Results {
    order: Vec<u16>,
    ends: Vec<u16>,
    means: Vec<f32>,
}

impl Batch {
    fn new(rows: usize, dim: usize, branching: u32, kind: Rows) -> Self {
        let name = (rows * 100 + dim) as u64 * 100 + u64::from(branching);
        let random = &mut Random::new(1, 96, name);
        let values = match kind {
            Rows::Clustered => rows_around(random, rows, dim, CENTRES),
            Rows::Shapeless => values(random, rows * dim),
            Rows::Repeating => repeated(&values(random, 8 * dim), rows * dim),
        };
        Self {
            numbers: GroupingNumbers {
                rows: rows as u32,
                dim: dim as u32,
                size_limit: limit(branching),
                branching,
                weight: WEIGHT,
                budget: BUDGET,
                spherical: 0,
            },
            values,
            draws: (0..256).map(|_| random.next_u32()).collect(),
        }
    }

    fn results(&self) -> Results {
        let rows = self.numbers.rows as usize;
        Results {
            order: vec![0; rows],
            ends: vec![0; rows],
            means: vec![0.0; self.values.len()],
        }
    }

    fn proved(&self, results: &mut Results, work: &mut GroupWork) -> GroupTold {
        let numbers = GroupNumbers {
            rows: self.numbers.rows,
            dim: self.numbers.dim,
            limit: self.numbers.size_limit,
            branching: self.numbers.branching,
            weight: self.numbers.weight,
            budget: self.numbers.budget,
            spherical: self.numbers.spherical,
        };
        exported::group(
            Mode::OldWay,
            numbers,
            &self.draws,
            &self.values,
            &mut results.order,
            &mut results.ends,
            &mut results.means,
            work,
        )
    }

    fn oracle(&self, results: &mut Results) -> GroupingAccepted {
        let lent = GroupingLent {
            order: &mut results.order,
            ends: &mut results.ends,
            means: &mut results.means,
        };
        let (values, draws) = (&self.values, &self.draws);
        let mode = refusal::Mode::OldWay;
        calls::grouping(mode, &self.numbers, values, draws, true, lent)
            .expect("the batch is one that is accepted")
    }
}

/// A group of more rows than the limit and fewer than branching would be refused.
fn limit(branching: u32) -> u32 {
    LIMIT.max(branching)
}

/// The values again and again, until there are as many.
fn repeated(values: &[f32], count: usize) -> Vec<f32> {
    values.iter().copied().cycle().take(count).collect()
}

/// Milliseconds, or microseconds where they say more.
fn shown(seconds: f64) -> String {
    match seconds < 1e-4 {
        true => format!("{:8.2} µs", seconds * 1e6),
        false => format!("{:8.2} ms", seconds * 1e3),
    }
}

/// Seconds of both sides for one batch.
fn measure(rounds: usize, batch: &Batch, name: &str) -> (f64, f64) {
    let numbers = &batch.numbers;
    let mut work = GroupWork::new(numbers.rows as usize, numbers.dim as usize, 0.0);
    let (mut mine, mut others) = (batch.results(), batch.results());
    let accepted = batch.oracle(&mut others);
    let told = GroupTold {
        number: 0,
        groups: accepted.groups,
        splits: accepted.splits,
        unplaced: accepted.unplaced,
    };
    let (proved, oracle) = as_long(
        rounds,
        || assert_eq!(batch.proved(&mut mine, &mut work), told),
        || assert_eq!(batch.oracle(&mut others), accepted),
    );
    assert_eq!(mine, others);
    println!(
        "{name}: {:6.2}x the oracle; {} to {}, {} groups, {} splits",
        oracle / proved,
        shown(proved),
        shown(oracle),
        told.groups,
        told.splits,
    );
    (proved, oracle)
}

fn main() {
    let rounds: usize = std::env::args()
        .nth(1)
        .map_or(21, |word| word.parse().expect("a number"));
    // A round of the last kind takes the oracle many seconds.
    for (kind, rounds) in [
        (Rows::Clustered, rounds),
        (Rows::Shapeless, rounds),
        (Rows::Repeating, rounds.div_ceil(5)),
    ] {
        let mut all = (0.0, 0.0);
        for (rows, dim) in SHAPES {
            for branching in BRANCHINGS {
                let name =
                    format!("grouping {rows:4} rows dim {dim:2} branching {branching:2} {kind:?}");
                // Rows at the limit are one group, and nothing is split.
                if rows <= limit(branching) as usize || !wanted(&name) {
                    continue;
                }
                let batch = Batch::new(rows, dim, branching, kind);
                let (proved, oracle) = measure(rounds, &batch, &name);
                all = (all.0 + proved, all.1 + oracle);
            }
        }
        if all != (0.0, 0.0) {
            println!("{kind:?} all together: {:.2}x the oracle", all.1 / all.0);
        }
    }
}
