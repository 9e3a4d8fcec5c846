//! Cases of k-means.

use super::unplaced::{make_large, row_kinds, unplace};
use super::values::{power_of_two, Source};
use super::{
    all_float_bits, double_bits, draw_list, length_of, outside, pass_kinds, size, usual_dim,
    wrong_draw_list, wrong_length, Case, Spoils, TwoWays, STALE_CELL, STALE_FLOAT,
};
use crate::calls::{
    kmeans, KMeansAccepted, KMeansLent, KMeansNumbers, BLOCK, DIM, ITERATIONS, K, KMEANS_ROWS,
    POINTS_PER_CENTROID, RESTARTS,
};
use crate::draws::Draws;
use crate::kmeans::{run_kmeans_flat, KMeansConfig, KMeansResult};
use crate::random::Random;
use crate::refusal::{Mode, Refusal};

/// Products a case may cost, so that tens of thousands of cases take seconds.
const COST: u32 = 1_000_000;

#[derive(Clone, Debug)]
pub struct KMeansCase {
    pub numbers: KMeansNumbers,
    pub values: Vec<f32>,
    pub draws: Vec<u32>,
    pub work_fits: bool,
    pub label_cells: usize,
    pub centroid_cells: usize,
}

#[derive(Clone, Debug, PartialEq, Eq)]
pub struct KMeansOutcome {
    /// The objective's bits, the restart and its unplaced rows, or the refusal.
    pub answer: Result<(u64, u32, u32), Refusal>,
    pub labels: Vec<u16>,
    pub centroids: Vec<u32>,
}

impl KMeansOutcome {
    pub fn new(
        answer: Result<KMeansAccepted, Refusal>,
        labels: Vec<u16>,
        centroids: &[f32],
    ) -> Self {
        let told = |found: KMeansAccepted| {
            let objective = double_bits(found.objective);
            (objective, found.restart, found.unplaced)
        };
        Self {
            answer: answer.map(told),
            labels,
            centroids: all_float_bits(centroids),
        }
    }
}

/// Numbers in their ranges, near the places where behaviour changes.
fn usual_numbers(random: &mut Random) -> KMeansNumbers {
    let rows = size(random, 1, 60, KMEANS_ROWS.high, 200);
    let dim = usual_dim(random);
    let most = rows.min(K.high);
    let few = random.small(1, most);
    let k = random.choose(&[1, few, few, few, most]);
    let restarts = {
        let any = random.between(1, RESTARTS.high);
        random.choose(&[1, 1, 1, 2, 3, any, RESTARTS.high])
    };
    let iterations = {
        let any = random.between(1, ITERATIONS.high);
        random.choose(&[1, 1, 2, 3, 5, any, 25, ITERATIONS.high])
    };
    let points_per_centroid = {
        let any = random.small(0, 20);
        random.choose(&[0, 1, 2, 3, any, 256, 256, POINTS_PER_CENTROID.high])
    };
    let block = {
        let any = random.between(1, BLOCK.high);
        let near = random.choose(&[rows.saturating_sub(1).max(1), rows, rows + 1]);
        random.choose(&[1, 2, 5, 8, 9, near, near, any, BLOCK.high])
    };
    let affordable = COST / (rows * k * dim * restarts).max(1);
    KMeansNumbers {
        rows,
        dim,
        k,
        iterations: iterations.min(affordable.max(1)),
        restarts,
        points_per_centroid,
        block,
        spherical: 0,
    }
}

fn spoil_a_number(random: &mut Random, numbers: &mut KMeansNumbers) {
    match random.below(10) {
        0 => numbers.rows = outside(random, KMEANS_ROWS),
        1 => numbers.dim = outside(random, DIM),
        2 => numbers.k = outside(random, K),
        3 => numbers.iterations = outside(random, ITERATIONS),
        4 => numbers.restarts = outside(random, RESTARTS),
        5 => numbers.points_per_centroid = outside(random, POINTS_PER_CENTROID),
        6 => numbers.block = outside(random, BLOCK),
        // Refusal 3 where k is still in its range.
        _ => numbers.k = numbers.rows + 1,
    }
}

impl KMeansCase {
    fn of(random: &mut Random, numbers: KMeansNumbers) -> Self {
        let source = Source::new(random, numbers.dim);
        let values = source.values(random, length_of(numbers.rows, numbers.dim));
        Self::given(numbers, values, draw_list(random))
    }

    /// Numbers, lengths and draws of which some are spoilt.
    pub(super) fn any(random: &mut Random) -> Self {
        let spoils = Spoils::new(random);
        let mut numbers = usual_numbers(random);
        if spoils.once_in(random, 8) {
            spoil_a_number(random, &mut numbers);
        }
        let mut case = Self::of(random, numbers);
        if spoils.once_in(random, 12) {
            case.spoil_a_length(random);
        }
        if spoils.once_in(random, 16) {
            case.draws = wrong_draw_list(random);
        }
        case
    }

    pub(super) fn given(numbers: KMeansNumbers, values: Vec<f32>, draws: Vec<u32>) -> Self {
        Self {
            numbers,
            values,
            draws,
            work_fits: true,
            label_cells: length_of(numbers.rows, 1),
            centroid_cells: length_of(numbers.k, numbers.dim),
        }
    }

    fn spoil_a_length(&mut self, random: &mut Random) {
        match random.below(4) {
            0 => {
                let length = wrong_length(random, self.values.len());
                self.values.resize(length, 1.0);
            }
            1 => self.label_cells = wrong_length(random, self.label_cells),
            2 => self.centroid_cells = wrong_length(random, self.centroid_cells),
            _ => self.work_fits = false,
        }
    }

    /// What an accepted call shows of passes through its list: each restart picks its centroids.
    pub fn pass_kinds(&self) -> Vec<&'static str> {
        let picks = u64::from(self.numbers.restarts) * u64::from(self.numbers.k);
        pass_kinds(&self.draws, picks)
    }

    /// What an accepted call of so many unplaced rows shows of them.
    pub fn unplaced_kinds(&self, unplaced: u32) -> Vec<&'static str> {
        let mut kinds = row_kinds(&self.values, self.numbers.dim);
        if unplaced > 0 {
            kinds.push("unplaced rows");
        }
        let each = self.unplaced_in_each();
        let last = each.last().copied().unwrap_or(unplaced);
        if unplaced < last {
            kinds.push("fewer unplaced than in the last restart");
        }
        if unplaced > last {
            kinds.push("more unplaced than in the last restart");
        }
        kinds
    }

    /// What a strict call shows of restarts that are not kept.
    pub fn strict_kinds(&self, strict: &KMeansOutcome) -> Vec<&'static str> {
        let number = Self::number(strict);
        if number != 0 && number != 9 {
            return vec![];
        }
        let each = self.unplaced_in_each();
        match number == 0 {
            true if each.iter().any(|&lost| lost > 0) => {
                vec!["accepted, with unplaced rows in a restart not kept"]
            }
            false if each.contains(&0) => {
                vec!["refused 9, with none unplaced in a restart not kept"]
            }
            _ => vec![],
        }
    }

    /// How many rows each of several restarts leaves unplaced, kept or not: where every row trains,
    /// it is a call by itself which goes on with the draws. Nothing where some row does not train.
    fn unplaced_in_each(&self) -> Vec<u32> {
        let most = self.numbers.k * self.numbers.points_per_centroid;
        if self.numbers.restarts < 2 || most < self.numbers.rows {
            return vec![];
        }
        let draws = &mut Draws::new(&self.draws);
        let restarts = 0..self.numbers.restarts;
        restarts.map(|_| self.restart(draws).unplaced).collect()
    }

    fn restart(&self, draws: &mut Draws) -> KMeansResult {
        let n = &self.numbers;
        let config = KMeansConfig {
            nredo: 1,
            ..n.config()
        };
        let (rows, dim, k) = (n.rows as usize, n.dim as usize, n.k as usize);
        run_kmeans_flat(&self.values, rows, dim, k, config, draws)
    }

    /// Two restarts of which one has a NaN objective and the other an infinite one, the NaN
    /// first or last. Rows whose norm overflows are unplaced and always in cluster 0, whose sum
    /// overflows exactly if 2^60 is in it too: that turns a tie at 2^107 and with it the last
    /// addition. The infinite row does not train; it minus an infinite centroid is NaN.
    pub fn nan_objective(nan_first: bool) -> Self {
        let values = vec![
            power_of_two(60),
            0.0,
            0.0,
            power_of_two(83),
            power_of_two(107),
            -power_of_two(107),
            power_of_two(103) - power_of_two(84),
            f32::MAX,
            f32::INFINITY,
        ];
        let numbers = KMeansNumbers {
            rows: 9,
            dim: 1,
            k: 2,
            iterations: 1,
            restarts: 2,
            points_per_centroid: 4,
            block: 32_768,
            spherical: 0,
        };
        // Eight draws pick the first eight rows, two a restart's centroids.
        let mut draws = vec![0; 8];
        draws.extend(match nan_first {
            true => [0, 0, 1, 0],
            false => [1, 0, 0, 0],
        });
        Self::given(numbers, values, draws)
    }

    /// Rows of one value, one restart, the default sampling, and draws of zero.
    fn simple(values: &[f32], k: u32, iterations: u32, block: u32) -> Self {
        let numbers = KMeansNumbers {
            rows: values.len() as u32,
            dim: 1,
            k,
            iterations,
            restarts: 1,
            points_per_centroid: 256,
            block,
            spherical: 0,
        };
        Self::given(numbers, values.to_vec(), vec![0])
    }
}

impl Case for KMeansCase {
    type Outcome = KMeansOutcome;
    const NAME: &'static str = "k-means";

    fn generate(seed: u64, index: u64) -> Self {
        Self::any(&mut Random::new(seed, 2, index))
    }

    fn built() -> Vec<Self> {
        // One row over and over: its mean rounds to another, refills outnumber the pool, and the next restart draws on.
        let mut drawn = Self::simple(&[0.1; 20], 12, 25, 5);
        drawn.numbers.restarts = 3;
        drawn.draws = (0..7).map(|i| i * 3).collect();
        let mut cases = vec![
            drawn,
            Self::simple(&[0.1; 20], 2, 25, 32_768),
            Self::simple(&[0.1; 20], 2, 24, 32_768),
            // Rows that are equal as numbers only, and rows that no score is below infinity for.
            Self::simple(&[0.0, -0.0, 0.0, -0.0], 3, 25, 32_768),
            Self::simple(&[f32::NAN; 4], 3, 25, 2),
            Self::simple(&[f32::INFINITY; 4], 3, 25, 2),
            Self::nan_objective(true),
            Self::nan_objective(false),
            // P10, and the ten equal rows of "Run" with one block and with two.
            Self::simple(&[0.0, 1.0], 1, 25, 32_768),
            Self::simple(&[1.0; 10], 10, 25, 32_768),
            Self::simple(&[1.0; 10], 10, 25, 5),
            // 1 minus 2^29 is -2^29 in f32, and twice 4097 squared needs f64.
            Self::simple(&[1.0, 1_073_741_824.0], 1, 25, 32_768),
            Self::simple(&[0.0, 8_194.0], 1, 25, 32_768),
        ];
        cases.extend(RestartsCase::built().into_iter().map(|case| case.0));
        cases
    }

    fn run(&self) -> KMeansOutcome {
        self.run_in(Mode::OldWay)
    }

    fn number(outcome: &KMeansOutcome) -> u32 {
        outcome.answer.err().map_or(0, Refusal::number)
    }
}

impl TwoWays for KMeansCase {
    fn run_in(&self, mode: Mode) -> KMeansOutcome {
        let mut labels = vec![STALE_CELL; self.label_cells];
        let mut centroids = vec![STALE_FLOAT; self.centroid_cells];
        let answer = kmeans(
            mode,
            &self.numbers,
            &self.values,
            &self.draws,
            self.work_fits,
            KMeansLent {
                labels: &mut labels,
                centroids: &mut centroids,
            },
        );
        KMeansOutcome::new(answer, labels, &centroids)
    }

    fn unplaced(outcome: &KMeansOutcome) -> Option<u32> {
        outcome.answer.ok().map(|(_, _, unplaced)| unplaced)
    }
}

/// Few rows of which some are unplaced, and several restarts, so that these differ in how many are.
#[derive(Clone, Debug)]
pub struct RestartsCase(pub KMeansCase);

impl RestartsCase {
    /// Two restarts of one iteration and two centroids, over rows of one value that all train.
    fn of_two(values: &[f32], draws: &[u32]) -> Self {
        let mut case = KMeansCase::simple(values, 2, 1, BLOCK.high);
        case.numbers.restarts = 2;
        case.draws = draws.to_vec();
        Self(case)
    }
}

impl Case for RestartsCase {
    type Outcome = KMeansOutcome;
    const NAME: &'static str = "k-means restarts";

    fn generate(seed: u64, index: u64) -> Self {
        let random = &mut Random::new(seed, 9, index);
        let rows = random.between(2, 12);
        let numbers = KMeansNumbers {
            rows,
            dim: random.between(1, 3),
            k: random.between(1, rows.min(3)),
            iterations: random.between(1, 4),
            restarts: random.between(2, 4),
            points_per_centroid: random.choose(&[1, 2, rows, rows, rows]),
            block: random.choose(&[1, 5, BLOCK.high]),
            spherical: 0,
        };
        let mut case = KMeansCase::of(random, numbers);
        let few = random.between(1, 3);
        unplace(random, &mut case.values, numbers.dim, few);
        if random.once_in(3) {
            make_large(random, &mut case.values, numbers.dim);
        }
        Self(case)
    }

    fn built() -> Vec<Self> {
        let lost_by_second = Self::of_two(&[-1.5e19, 1.1e19, 1.5e19], &[5, 4]);
        let lost_by_kept = Self::of_two(&[-1.5e19, 1.1e19], &[0, 0, 1, 0]);
        vec![lost_by_second, lost_by_kept]
    }

    fn run(&self) -> KMeansOutcome {
        self.run_in(Mode::OldWay)
    }

    fn number(outcome: &KMeansOutcome) -> u32 {
        KMeansCase::number(outcome)
    }
}

impl TwoWays for RestartsCase {
    fn run_in(&self, mode: Mode) -> KMeansOutcome {
        self.0.run_in(mode)
    }

    fn unplaced(outcome: &KMeansOutcome) -> Option<u32> {
        KMeansCase::unplaced(outcome)
    }
}
