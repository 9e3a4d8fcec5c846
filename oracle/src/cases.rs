//! Inputs for comparing another implementation with the oracle. A case owns all that a call is
//! handed, the lengths of the lent slices too, and is a function of a seed and an index, so that
//! a failing one can be named. What a call answered and left in the lent cells is its outcome;
//! two outcomes are equal exactly when document 01 counts them as the same.

use std::fmt::Debug;

use crate::calls::Range;
use crate::random::Random;
use crate::refusal::{Mode, Refusal};

mod batch;
mod bytes;
mod closure;
mod grouping;
mod kmeans;
mod labelling;
mod placing;
mod result_files;
mod result_trips;
mod results;
mod scales;
mod spherical;
mod unplaced;
mod values;

pub use batch::{file_of, BatchCase};
pub use bytes::{BytesOutcome, ClosureBytesCase, LabelBytesCase};
pub use closure::{ClosureCase, ClosureOutcome};
pub use grouping::{GroupingCase, GroupingOutcome};
pub use kmeans::{KMeansCase, KMeansOutcome, RestartsCase};
pub use labelling::{LabelCase, LabelOutcome};
pub use placing::{PlaceCase, PlaceOutcome};
pub use result_files::{ReadOutcome, ReadResultCase, ResultNumbersCase};
pub use result_trips::{ResultTripCase, TripOutcome};
pub use results::{WriteOutcome, WriteResultCase};
pub use spherical::{SphericalCase, SphericalGroupingCase, ON, SHOWS};

pub trait Case: Debug + Sized {
    type Outcome: Debug + PartialEq;

    /// The word by which a report names a case, beside seed and index.
    const NAME: &'static str;

    fn generate(seed: u64, index: u64) -> Self;

    /// Cases that random ones never or hardly meet.
    fn built() -> Vec<Self>;

    /// The oracle's outcome.
    fn run(&self) -> Self::Outcome;

    /// The refusal's number, 0 for an acceptance.
    fn number(outcome: &Self::Outcome) -> u32;
}

/// A case of a call that has two modes. `run` of it is the old way's, which accepts more.
pub trait TwoWays: Case {
    /// The oracle's outcome in a mode.
    fn run_in(&self, mode: Mode) -> Self::Outcome;

    /// How many rows are unplaced, where the outcome tells.
    fn unplaced(outcome: &Self::Outcome) -> Option<u32>;

    /// Whether a strict outcome goes with the old way's of the same case: it is the same where nothing is unplaced, and refused by 9
    /// where something is. What the old way refuses before it labels has no 9; what it refuses later, by 6 or 7, may have one.
    fn go_together(old: &Self::Outcome, strict: &Self::Outcome) -> bool {
        let lost = Self::unplaced(old);
        match Self::number(strict) == Refusal::UnplacedRow.number() {
            true => lost != Some(0) && !(1..=4).contains(&Self::number(old)),
            false => lost.is_none_or(|lost| lost == 0) && strict == old,
        }
    }
}

/// Lent cells come full of this, so that a cell which is left alone shows.
pub const STALE_CELL: u16 = 0x1234;
pub const STALE_FLOAT: f32 = -7.25;
pub const STALE_BYTE: u8 = 0x5a;
pub const STALE_BITS: u32 = 0x5a5a_1234;

/// NaN results are compared as NaN: all their bits become the same.
pub fn float_bits(value: f32) -> u32 {
    if value.is_nan() {
        return f32::NAN.to_bits();
    }
    value.to_bits()
}

/// As `float_bits`, for an objective.
pub fn double_bits(value: f64) -> u64 {
    if value.is_nan() {
        return f64::NAN.to_bits();
    }
    value.to_bits()
}

pub fn all_float_bits(values: &[f32]) -> Vec<u32> {
    values.iter().map(|&value| float_bits(value)).collect()
}

/// How often a case is spoilt in one way: some cases in many, to see which refusal goes first.
#[derive(Clone, Copy)]
struct Spoils {
    often: bool,
}

impl Spoils {
    fn new(random: &mut Random) -> Self {
        Self {
            often: random.once_in(24),
        }
    }

    fn once_in(self, random: &mut Random, times: u32) -> bool {
        random.once_in(if self.often { 2 } else { times })
    }
}

/// A number that the range shuts out, just outside or far.
fn outside(random: &mut Random, range: Range) -> u32 {
    let below = range.low.wrapping_sub(1);
    let above = range.high + 1;
    let far = [
        65_536,
        65_536 + range.high,
        1 << 31,
        (1 << 31) + range.high,
        u32::MAX,
    ];
    match random.below(4) {
        0 => below,
        1 | 2 => above,
        _ => random.choose(&far),
    }
}

/// A length that is not the exact one.
fn wrong_length(random: &mut Random, exact: usize) -> usize {
    let near = random.between(1, 3) as usize;
    match random.below(5) {
        0 => exact + 1,
        1 => exact + near,
        2 if exact > 0 => 0,
        3 if exact > 0 => exact - 1,
        _ => 2 * exact + 1,
    }
}

/// The product where slices of that length are worth making; else an out-of-range number has
/// made it large, and any length will do.
fn length_of(a: u32, b: u32) -> usize {
    match a.checked_mul(b) {
        Some(product) if product <= 300_000 => product as usize,
        _ => 3,
    }
}

/// A size that is mostly small, and once in a while anything up to the most, or just that.
fn size(random: &mut Random, low: u32, usual: u32, most: u32, times: u32) -> u32 {
    if !random.once_in(times) {
        return random.small(low, usual);
    }
    let any = random.between(low, most);
    random.choose(&[any, any, most])
}

fn usual_dim(random: &mut Random) -> u32 {
    size(random, 1, 8, 64, 16)
}

/// A draw list: short ones go round, long ones don't, and the numbers are small, any, or so large
/// that they wrap after a few passes.
fn draw_list(random: &mut Random) -> Vec<u32> {
    let length = match random.below(16) {
        0..=6 => random.between(1, 3),
        7..=11 => random.small(1, 12),
        12..=14 => random.small(1, 200),
        _ => 4_096,
    };
    let kind = random.below(4);
    let draw = |random: &mut Random| match kind {
        0 => u32::MAX - random.below(8),
        1 => random.below(8),
        _ => random.next_u32(),
    };
    (0..length).map(|_| draw(random)).collect()
}

/// What a call that made at least so many draws shows of passes through its list.
fn pass_kinds(draws: &[u32], made: u64) -> Vec<&'static str> {
    if made <= 2 * draws.len() as u64 {
        return vec![];
    }
    let wraps = draws.iter().any(|draw| draw.checked_add(2).is_none());
    match wraps {
        true => vec!["more than two passes", "a draw that wraps"],
        false => vec!["more than two passes"],
    }
}

/// A draw list that is refused by 4.
fn wrong_draw_list(random: &mut Random) -> Vec<u32> {
    let length = random.choose(&[0, 0, 4_097, 5_000]);
    vec![1; length]
}
