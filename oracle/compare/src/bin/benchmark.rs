//! Speed of the proved library against the oracle's scalar loops, both in the old way, side by side in one run on one thread: ratios of
//! medians.
//!
//! `benchmark [ROUNDS] [WORD..]`: all, or what has these words in its name.

use compare::timing::{as_long, rows_around, side_by_side, values, wanted};
use engine::exported::{self, KMeansNumbers, KMeansWork, Mode};
use oracle::calls;
use oracle::random::Random;
use oracle::refusal;

const ROWS: usize = 4_096;
const TRAY: usize = 40;
const SHAPES: [(usize, usize); 5] = [(3, 16), (16, 16), (16, 64), (64, 64), (64, 16)];

fn labelling(rounds: usize, count: usize, dim: usize, k: usize) {
    let name = format!("labelling {count:4} rows dim {dim:2} k {k:2}");
    if !wanted(&name) {
        return;
    }
    let random = &mut Random::new(1, 90, (dim * 100 + k) as u64);
    let rows = values(random, count * dim);
    let centroids = values(random, k * dim);
    let numbers = (count as u32, dim as u32, k as u32);
    let mut mine = vec![0u16; count];
    let mut theirs = vec![0u16; count];
    let (proved, oracle) = as_long(
        rounds,
        || {
            exported::label_rows(
                Mode::OldWay,
                numbers.0,
                numbers.1,
                numbers.2,
                &rows,
                &centroids,
                &mut mine,
            );
        },
        || {
            let _ = calls::labelling(
                refusal::Mode::OldWay,
                numbers.0,
                numbers.1,
                numbers.2,
                &rows,
                &centroids,
                &mut theirs,
            );
        },
    );
    assert_eq!(mine, theirs);
    println!(
        "{name}: {:5.2}x the oracle; {:6.2} µs, {:6.2} M rows/s, {:6.2} G multiply-adds/s",
        oracle / proved,
        proved * 1e6,
        count as f64 / proved / 1e6,
        (count * dim * k) as f64 / proved / 1e9,
    );
}

/// What the rows of a k-means look like.
#[derive(Clone, Copy, Debug)]
enum Rows {
    /// around k centres
    Clustered,
    /// drawn from everywhere alike
    Shapeless,
    /// eight rows again and again: with more clusters than that some are refilled in every iteration, and it never settles
    Repeating,
}

fn rows_of(random: &mut Random, dim: usize, k: usize, kind: Rows) -> Vec<f32> {
    match kind {
        Rows::Clustered => rows_around(random, ROWS, dim, k),
        Rows::Shapeless => values(random, ROWS * dim),
        Rows::Repeating => values(random, 8 * dim).repeat(ROWS / 8),
    }
}

/// K-means of 100 iterations, one restart, every row training.
fn kmeans(rounds: usize, dim: usize, k: usize, kind: Rows) {
    let name = format!("k-means dim {dim:2} k {k:2} {kind:?}");
    if !wanted(&name) {
        return;
    }
    let random = &mut Random::new(1, 91, (dim * 100 + k) as u64);
    let rows = rows_of(random, dim, k, kind);
    let draws: Vec<u32> = (0..64).map(|_| random.below(1 << 30)).collect();
    let numbers = KMeansNumbers {
        rows: ROWS as u32,
        dim: dim as u32,
        k: k as u32,
        iterations: 100,
        restarts: 1,
        points_per_centroid: 4_096,
        block: 32_768,
        spherical: false,
    };
    let theirs = calls::KMeansNumbers {
        rows: numbers.rows,
        dim: numbers.dim,
        k: numbers.k,
        iterations: numbers.iterations,
        restarts: numbers.restarts,
        points_per_centroid: numbers.points_per_centroid,
        block: numbers.block,
        spherical: 0,
    };
    let mut work = KMeansWork::new(ROWS, dim, 0.0);
    let mut mine = (vec![0u16; ROWS], vec![0.0f32; k * dim]);
    let mut others = (vec![0u16; ROWS], vec![0.0f32; k * dim]);
    let (proved, oracle) = side_by_side(
        rounds,
        || {
            let lent = (&mut mine.0[..], &mut mine.1[..]);
            exported::kmeans(
                Mode::OldWay,
                numbers,
                &draws,
                &rows,
                lent.0,
                lent.1,
                &mut work,
            );
        },
        || {
            let lent = calls::KMeansLent {
                labels: &mut others.0,
                centroids: &mut others.1,
            };
            let _ = calls::kmeans(refusal::Mode::OldWay, &theirs, &rows, &draws, true, lent);
        },
    );
    assert_eq!(mine, others);
    let settled = (1..=100).find(|&iterations| {
        let mut trial = (vec![0u16; ROWS], vec![0.0f32; k * dim]);
        let fewer = KMeansNumbers {
            iterations,
            ..numbers
        };
        let lent = (&mut trial.0[..], &mut trial.1[..]);
        exported::kmeans(
            Mode::OldWay,
            fewer,
            &draws,
            &rows,
            lent.0,
            lent.1,
            &mut work,
        );
        trial == mine
    });
    println!(
        "{name}: {:6.2}x the oracle; {:7.2} ms, nothing changes after iteration {}",
        oracle / proved,
        proved * 1e3,
        settled.unwrap_or(100),
    );
}

fn main() {
    let rounds = std::env::args()
        .nth(1)
        .map_or(101, |word| word.parse().expect("a number"));
    for rows in [ROWS, TRAY, 1] {
        for (dim, k) in SHAPES {
            labelling(rounds, rows, dim, k);
        }
    }
    for kind in [Rows::Clustered, Rows::Shapeless, Rows::Repeating] {
        for (dim, k) in SHAPES {
            kmeans(rounds.div_ceil(20), dim, k, kind);
        }
    }
}
