//! Cases of k-means and grouping with `spherical` on (request (iv) of document 02), over readings whose scale or whose norm is where
//! normalising changes something, or must not.

use super::scales::{remake, GAINS, LARGE};
use super::{Case, GroupingCase, GroupingOutcome, KMeansCase, KMeansOutcome, TwoWays};
use crate::calls::{GroupingNumbers, KMeansNumbers, BLOCK, SPLIT_BUDGET};
use crate::random::Random;
use crate::refusal::Mode;

/// What a tally names of such cases: that it is on, and that a setting which is dropped would show.
pub const ON: &str = "on";
pub const SHOWS: &str = "other answers with it off";

/// Any number, and those more often whose lowest bits are zero or which are the largest; 0 is off.
fn any_number(random: &mut Random) -> u32 {
    let any = random.next_u32();
    random.choose(&[0, 1, 1, 1, 1, 2, 2, 256, 256, u32::MAX, u32::MAX, any])
}

/// The kinds of the number, and whether the answer is another with it off.
fn number_kinds(number: u32, shows: impl FnOnce() -> bool) -> Vec<&'static str> {
    let mut kinds = vec![match number {
        0 => "number 0",
        1 => "number 1",
        2 => "number 2",
        256 => "number 256",
        u32::MAX => "number 4294967295",
        _ => "another number",
    }];
    if number != 0 {
        kinds.push(ON);
    }
    if number != 0 && shows() {
        kinds.push(SHOWS);
    }
    kinds
}

#[derive(Clone, Debug)]
pub struct SphericalCase {
    pub case: KMeansCase,
    /// How its readings were made.
    pub readings: &'static str,
}

impl SphericalCase {
    /// One restart of so many iterations, over rows that all train.
    fn simple(dim: u32, k: u32, iterations: u32, values: &[f32]) -> Self {
        let numbers = KMeansNumbers {
            rows: values.len() as u32 / dim,
            dim,
            k,
            iterations,
            restarts: 1,
            points_per_centroid: 256,
            block: BLOCK.high,
            spherical: 1,
        };
        Self {
            case: KMeansCase::given(numbers, values.to_vec(), vec![0]),
            readings: "built",
        }
    }

    fn off(&self) -> KMeansCase {
        let mut case = self.case.clone();
        case.numbers.spherical = 0;
        case
    }

    /// What a case shows by its outcome in a mode.
    pub fn kinds(&self, mode: Mode, outcome: &KMeansOutcome) -> Vec<&'static str> {
        let numbers = &self.case.numbers;
        let shows = || self.off().run_in(mode) != *outcome;
        let mut kinds = number_kinds(numbers.spherical, shows);
        if outcome.answer.is_err() || numbers.spherical == 0 {
            return kinds;
        }
        kinds.push(self.readings);
        kinds.extend(self.shape_kinds());
        if self.settles(mode, outcome) {
            kinds.push("settled before the last iteration");
        }
        let centroids = outcome.centroids.chunks_exact(numbers.dim as usize);
        let mut of_centroids: Vec<_> = centroids.filter_map(centroid_kind).collect();
        of_centroids.sort_unstable();
        of_centroids.dedup();
        if self.readings == LARGE && of_centroids.contains(&ZEROS) {
            kinds.push("a centroid of zeros for an infinite norm");
        }
        kinds.extend(of_centroids);
        kinds
    }

    fn shape_kinds(&self) -> Vec<&'static str> {
        let numbers = &self.case.numbers;
        let bits = |row: &[f32]| -> Vec<u32> { row.iter().map(|value| value.to_bits()).collect() };
        let mut rows = self.case.values.chunks_exact(numbers.dim as usize);
        let first = rows.next().map(bits);
        let equal = numbers.rows > 1 && rows.all(|row| Some(bits(row)) == first);
        let met = [
            (numbers.iterations == 1, "one iteration"),
            (numbers.restarts > 1, "several restarts"),
            (numbers.k == numbers.rows, "as many clusters as rows"),
            (equal, "rows that are all equal"),
        ];
        let met = met.into_iter().filter(|(is_met, _)| *is_met);
        met.map(|(_, kind)| kind).collect()
    }

    /// Whether one iteration less gives the same.
    fn settles(&self, mode: Mode, outcome: &KMeansOutcome) -> bool {
        let mut fewer = self.case.clone();
        fewer.numbers.iterations -= 1;
        fewer.numbers.iterations > 0 && fewer.run_in(mode) == *outcome
    }
}

const ZEROS: &str = "a centroid of zeros";

/// What is left of a centroid that has no norm of about 1 afterwards.
fn centroid_kind(bits: &[u32]) -> Option<&'static str> {
    let centroid: Vec<f32> = bits.iter().map(|&bits| f32::from_bits(bits)).collect();
    let norm = centroid
        .iter()
        .fold(0.0, |norm, value| norm + value * value);
    if centroid.iter().any(|value| value.is_nan()) {
        let all = centroid.iter().all(|value| value.is_nan());
        return Some(match all {
            true => "a centroid of NaN",
            false => "a centroid with a NaN and a number",
        });
    }
    match norm {
        0.0 if bits.iter().all(|&bits| bits == 0) => Some(ZEROS),
        0.0 if centroid.iter().all(|&value| value == 0.0) => Some("a centroid with -0.0"),
        0.0 => Some("a centroid whose squares vanish"),
        // A norm below the normal range has few bits, and so has what it is scaled to.
        _ if (norm - 1.0).abs() > 1e-3 => Some("a centroid off the sphere"),
        _ => None,
    }
}

impl Case for SphericalCase {
    type Outcome = KMeansOutcome;
    const NAME: &'static str = "spherical k-means";

    fn generate(seed: u64, index: u64) -> Self {
        let random = &mut Random::new(seed, 10, index);
        let mut case = KMeansCase::any(random);
        let readings = remake(random, &mut case.values, case.numbers.dim);
        case.numbers.spherical = any_number(random);
        Self { case, readings }
    }

    fn built() -> Vec<Self> {
        let small = f32::from_bits(1 << 20);
        let refilled = [-0.0, 3.0, -0.0, 3.0, -0.0, 3.0, 5.0, 0.0];
        vec![
            // By its own scale the third row is nearest to the second pick, by shape to the first.
            Self::simple(2, 2, 1, &[10.0, 0.0, 0.0, 1.0, 1.0, 0.9]),
            // A row that is refilled with keeps its -0.0, and a mean has none.
            Self::simple(2, 3, 1, &refilled),
            Self::simple(2, 3, 25, &refilled),
            // One row over and over: of any scale, of zeros, and with squares that vanish.
            Self::simple(2, 3, 25, &[3e-5, 4e-5].repeat(9)),
            Self::simple(2, 3, 25, &[0.0; 18]),
            Self::simple(2, 3, 25, &[-0.0; 18]),
            Self::simple(2, 3, 25, &[small; 18]),
            // As many clusters as rows: norms of NaN, of infinity by a value and by a square, subnormal ones and 0.
            Self::simple(2, 2, 1, &[f32::NAN, 3.0, 1.0, 2.0]),
            Self::simple(2, 2, 1, &[f32::INFINITY, 3.0, 1.0, 2.0]),
            Self::simple(2, 2, 1, &[1e19, -1.5e19, 1.0, 2.0]),
            Self::simple(2, 2, 1, &[3e-20, 4e-21, 1.0, 2.0]),
            Self::simple(2, 2, 1, &[1e-30, 2e-30, 1.0, 2.0]),
        ]
    }

    fn run(&self) -> KMeansOutcome {
        self.run_in(Mode::OldWay)
    }

    fn number(outcome: &KMeansOutcome) -> u32 {
        KMeansCase::number(outcome)
    }
}

impl TwoWays for SphericalCase {
    fn run_in(&self, mode: Mode) -> KMeansOutcome {
        self.case.run_in(mode)
    }

    fn unplaced(outcome: &KMeansOutcome) -> Option<u32> {
        KMeansCase::unplaced(outcome)
    }
}

#[derive(Clone, Debug)]
pub struct SphericalGroupingCase {
    pub case: GroupingCase,
    /// How its readings were made.
    pub readings: &'static str,
}

impl SphericalGroupingCase {
    /// Rows of two readings, parted in two.
    fn simple(size_limit: u32, weight: f32, budget: u32, values: &[f32]) -> Self {
        let numbers = GroupingNumbers {
            rows: values.len() as u32 / 2,
            dim: 2,
            size_limit,
            branching: 2,
            weight,
            budget,
            spherical: 1,
        };
        Self {
            case: GroupingCase::given(numbers, values.to_vec(), vec![0]),
            readings: "built",
        }
    }

    /// Two shapes at four scales each. By distance the small ones of both go together, by shape the rows of each.
    pub fn gains() -> Self {
        let gains = [0.5, 1.0, 2.0, 4.0];
        let rows = gains.map(|gain| [[0.8 * gain, 0.6 * gain], [0.6 * gain, 0.8 * gain]]);
        let mut case = Self::simple(4, 0.0, 9, &rows.concat().concat());
        case.case.draws = vec![0, 1];
        case.readings = GAINS;
        case
    }

    fn off(&self) -> GroupingCase {
        let mut case = self.case.clone();
        case.numbers.spherical = 0;
        case
    }

    /// What a case shows by its outcome in a mode.
    pub fn kinds(&self, mode: Mode, outcome: &GroupingOutcome) -> Vec<&'static str> {
        let number = self.case.numbers.spherical;
        let mut kinds = number_kinds(number, || self.off().run_in(mode) != *outcome);
        let splits = outcome.answer.map_or(0, |accepted| accepted.splits);
        if number != 0 && splits > 0 {
            kinds.push(self.readings);
        }
        kinds
    }
}

impl Case for SphericalGroupingCase {
    type Outcome = GroupingOutcome;
    const NAME: &'static str = "spherical grouping";

    fn generate(seed: u64, index: u64) -> Self {
        let random = &mut Random::new(seed, 11, index);
        let mut case = GroupingCase::any(random);
        let readings = remake(random, &mut case.values, case.numbers.dim);
        if random.once_in(3) {
            case.split_far(random);
        }
        // Rows that part well by distance may have one shape, and would spend any budget.
        if case.numbers.budget <= SPLIT_BUDGET.high {
            case.numbers.budget = case.numbers.budget.min(30);
        }
        case.numbers.spherical = any_number(random);
        Self { case, readings }
    }

    fn built() -> Vec<Self> {
        // More rows than train: one shape at every hundredth of its gain, and rows of all directions.
        let gains = (0..1_100).flat_map(|row| [0.3, 0.4].map(|value| value * row as f32 / 100.0));
        let turns = (0..1_100).flat_map(|row| [(row as f32).sin(), (row as f32).cos()]);
        vec![
            Self::simple(500, 0.25, 20, &gains.collect::<Vec<_>>()),
            Self::simple(500, 0.0, 20, &turns.collect::<Vec<_>>()),
            Self::gains(),
            // One shape at several scales, which balancing alone parts.
            Self::simple(2, 0.0, 5, &[0.5, 1.0, 1.0, 2.0, 4.0, 8.0, 2.0, 4.0]),
            Self::simple(2, 0.5, 5, &[0.5, 1.0, 1.0, 2.0, 4.0, 8.0, 2.0, 4.0]),
            // Equal rows, zeros, and a row that nothing places.
            Self::simple(4, 0.25, 9, &[0.3, 0.4].repeat(12)),
            Self::simple(4, 0.25, 9, &[0.0; 24]),
            Self::simple(2, 0.25, 9, &[0.3, 0.4, 3.0, -4.0, f32::NAN, 1.0, -3.0, 4.0]),
        ]
    }

    fn run(&self) -> GroupingOutcome {
        self.run_in(Mode::OldWay)
    }

    fn number(outcome: &GroupingOutcome) -> u32 {
        GroupingCase::number(outcome)
    }
}

impl TwoWays for SphericalGroupingCase {
    fn run_in(&self, mode: Mode) -> GroupingOutcome {
        self.case.run_in(mode)
    }

    fn unplaced(outcome: &GroupingOutcome) -> Option<u32> {
        GroupingCase::unplaced(outcome)
    }
}
