//! The oracle's cases, handed to the proved library.

use engine::exported;
use oracle::cases::{BytesOutcome, Case, ClosureBytesCase, TwoWays};
use oracle::cases::{LabelBytesCase, LabelCase, LabelOutcome, PlaceCase, PlaceOutcome};
use oracle::cases::{STALE_BYTE, STALE_CELL, STALE_FLOAT};
use oracle::refusal::{Mode, Refusal};

use crate::tally::{number_kind, Need};

mod grouping;
mod kmeans;
mod results;
mod spherical;

/// A call of k-means or grouping that is accepted with `spherical` on.
pub const ACCEPTED_ON: &str = "accepted with spherical on";

/// What the proved library answered and left.
pub struct Proved<Outcome> {
    pub outcome: Outcome,
    /// Whether all work slices ended all zero, and a refusal's figures blank: it carries its number alone. Of a result file that goes
    /// to and fro, whether everything comes back.
    pub tidy: bool,
}

impl<Outcome> Proved<Outcome> {
    /// Of a call that works in nothing lent.
    fn without_work(outcome: Outcome) -> Self {
        Self {
            outcome,
            tidy: true,
        }
    }
}

/// A case that the proved library can be handed.
pub trait Compared: Case {
    /// What a run of thousands of generated cases has to meet.
    const NEEDS: &'static [Need];

    fn proved(&self) -> Proved<Self::Outcome>;

    /// What this case is there for, by the oracle's outcome.
    fn kinds(&self, outcome: &Self::Outcome) -> Vec<String> {
        vec![number_kind(Self::number(outcome))]
    }
}

/// A case that the proved library can be handed in both modes. `proved` of it is the old way's, as `run` is.
pub trait BothWays: Compared + TwoWays {
    fn proved_in(&self, mode: Mode) -> Proved<Self::Outcome>;

    /// What this case is there for in the strict mode, by the oracle's outcomes of both.
    fn strict_kinds(&self, _old: &Self::Outcome, strict: &Self::Outcome) -> Vec<String> {
        vec![strict_kind(&number_kind(Self::number(strict)))]
    }
}

/// A kind of the strict mode, told from those of the old way.
fn strict_kind(kind: &str) -> String {
    format!("strict: {kind}")
}

/// The kind of the strict answer, and what else the case shows.
fn strict_kinds(number: u32, shown: Vec<&str>) -> Vec<String> {
    let kinds = kinds(number, shown);
    kinds.iter().map(|kind| strict_kind(kind)).collect()
}

/// The same mode, as the wrappers name it.
fn wrapped(mode: Mode) -> exported::Mode {
    match mode {
        Mode::Strict => exported::Mode::Strict,
        Mode::OldWay => exported::Mode::OldWay,
    }
}

/// Bytes that stand at any address, as a host may lend them, and end where their allocation ends.
struct Shifted {
    by: usize,
    bytes: Vec<u8>,
}

impl Shifted {
    fn new(bytes: &[u8], by: usize) -> Self {
        let mut shifted = Vec::with_capacity(by + bytes.len());
        shifted.resize(by, STALE_BYTE);
        shifted.extend_from_slice(bytes);
        Self { by, bytes: shifted }
    }

    fn bytes(&self) -> &[u8] {
        &self.bytes[self.by..]
    }
}

impl Compared for LabelBytesCase {
    const NEEDS: &'static [Need] = &[
        ("accepted", 100),
        ("refused 1", 100),
        ("refused 2", 100),
        ("strict: accepted", 100),
        ("strict: refused 1", 100),
        ("strict: refused 2", 100),
        ("strict: refused 9", 100),
    ];

    fn proved(&self) -> Proved<BytesOutcome> {
        self.proved_in(Mode::OldWay)
    }
}

impl BothWays for LabelBytesCase {
    fn proved_in(&self, mode: Mode) -> Proved<BytesOutcome> {
        let row = Shifted::new(&self.row, self.k as usize % 4);
        let centroids = Shifted::new(&self.centroids, self.dim as usize % 4);
        let mut result = vec![STALE_BYTE; self.result_bytes];
        let number = exported::label(
            wrapped(mode),
            self.dim,
            self.k,
            row.bytes(),
            centroids.bytes(),
            &mut result,
        );
        Proved::without_work(BytesOutcome { number, result })
    }
}

impl Compared for ClosureBytesCase {
    const NEEDS: &'static [Need] = &[
        ("accepted", 100),
        ("refused 1", 100),
        ("refused 2", 100),
        ("refused 5", 100),
    ];

    fn proved(&self) -> Proved<BytesOutcome> {
        let vector = Shifted::new(&self.vector, self.count as usize % 4);
        let centroids = Shifted::new(&self.centroids, self.dim as usize % 4);
        let mut result = vec![STALE_BYTE; self.result_bytes];
        let number = exported::closure(
            self.dim,
            self.count,
            self.max_replicas,
            self.epsilon,
            vector.bytes(),
            centroids.bytes(),
            &mut result,
        );
        Proved::without_work(BytesOutcome { number, result })
    }
}

impl Compared for LabelCase {
    const NEEDS: &'static [Need] = &[
        ("accepted", 100),
        ("refused 1", 100),
        ("refused 2", 100),
        ("a NaN row", 100),
        ("an infinite row", 100),
        ("a row whose norm overflows", 100),
        ("a NaN centroid", 100),
        ("all rows unplaced", 100),
        ("unplaced rows beside family 0", 100),
        ("strict: accepted", 100),
        ("strict: refused 1", 100),
        ("strict: refused 2", 100),
        ("strict: refused 9", 100),
    ];

    fn proved(&self) -> Proved<LabelOutcome> {
        self.proved_in(Mode::OldWay)
    }

    fn kinds(&self, outcome: &LabelOutcome) -> Vec<String> {
        let shown = |unplaced| self.unplaced_kinds(&outcome.labels, unplaced);
        kinds(Self::number(outcome), outcome.answer.map_or(vec![], shown))
    }
}

impl BothWays for LabelCase {
    fn proved_in(&self, mode: Mode) -> Proved<LabelOutcome> {
        let mut labels = vec![STALE_CELL; self.label_cells];
        let told = exported::label_rows(
            wrapped(mode),
            self.rows,
            self.dim,
            self.k,
            &self.values,
            &self.centroids,
            &mut labels,
        );
        Proved {
            outcome: LabelOutcome {
                answer: answer(told.number, told.unplaced),
                labels,
            },
            tidy: told.number == 0 || told.unplaced == 0,
        }
    }
}

impl Compared for PlaceCase {
    const NEEDS: &'static [Need] = &[
        ("accepted", 100),
        ("refused 1", 100),
        ("refused 2", 100),
        ("refused 2 for distances alone", 100),
        ("a NaN row", 100),
        ("an infinite row", 100),
        ("a row whose norm overflows", 100),
        ("a NaN centroid", 100),
        ("all rows unplaced", 100),
        ("unplaced rows beside family 0", 100),
        ("unplaced rows beside a distance of 0", 100),
        ("strict: accepted", 100),
        ("strict: refused 1", 100),
        ("strict: refused 2", 100),
        ("strict: refused 9", 100),
    ];

    fn proved(&self) -> Proved<PlaceOutcome> {
        self.proved_in(Mode::OldWay)
    }

    fn kinds(&self, outcome: &PlaceOutcome) -> Vec<String> {
        let number = Self::number(outcome);
        let mut kinds = kinds(number, self.unplaced_kinds(outcome));
        if number == 2 && self.labelling.run().answer.is_ok() {
            kinds.push("refused 2 for distances alone".into());
        }
        kinds
    }
}

impl BothWays for PlaceCase {
    fn proved_in(&self, mode: Mode) -> Proved<PlaceOutcome> {
        let case = &self.labelling;
        let mut labels = vec![STALE_CELL; case.label_cells];
        let mut distances = vec![STALE_FLOAT; self.distance_cells];
        let told = exported::place_cells(
            wrapped(mode),
            case.rows,
            case.dim,
            case.k,
            &case.values,
            &case.centroids,
            &mut labels,
            &mut distances,
        );
        Proved {
            outcome: PlaceOutcome::new(answer(told.number, told.unplaced), labels, &distances),
            tidy: told.number == 0 || told.unplaced == 0,
        }
    }
}

/// The kind of the answer, and what else the case shows.
fn kinds(number: u32, shown: Vec<&str>) -> Vec<String> {
    let shown = shown.into_iter().map(String::from);
    std::iter::once(number_kind(number)).chain(shown).collect()
}

fn answer<T>(number: u32, accepted: T) -> Result<T, Refusal> {
    match number {
        0 => Ok(accepted),
        _ => Err(Refusal::from_number(number).expect("a refusal's number is one of the table's")),
    }
}

/// A length that does not fit: a cell less or a cell more.
fn spoil(slice: &mut Vec<f32>, shorter: bool) {
    match shorter {
        true => drop(slice.pop()),
        false => slice.push(STALE_FLOAT),
    }
}

/// The kind of a case that is refused for one work slice.
fn wrong_kind(slice: &str, shorter: bool) -> String {
    let how = if shorter { "short" } else { "long" };
    format!("{slice} too {how}")
}
