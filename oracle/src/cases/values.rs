//! Readings of several flavours: each is there for a kind of mistake that the others would miss.

use crate::random::Random;

#[derive(Clone, Copy, Debug, PartialEq, Eq)]
pub enum Flavour {
    /// Any place between -10 and 10.
    Plain,
    /// Noise around a few centres.
    Clustered,
    /// One centre with a few far rows, which makes clusters of unequal size.
    Lopsided,
    /// Whole numbers from 0 to 3, for ties.
    Ties,
    /// A few rows over and over, for ties and empty clusters.
    Repeated,
    /// Whole numbers from 4,096 on, where the norm formula rounds.
    Rounded,
    /// A small spread far from zero, where the norm formula cancels.
    Offset,
    /// Powers of two of either sign, for sums whose order matters.
    Powers,
    /// One row's values in any order, and rows of one value, to which all those are equally far
    /// but for the rounding of sums.
    Permuted,
    /// Around the root of the largest float, where norms overflow.
    Huge,
    /// Around the root of the smallest one, where squares vanish.
    Tiny,
    /// Small numbers with NaN, infinities and other ends of the range between.
    Special,
    /// Any bits.
    Bits,
}

const FLAVOURS: [Flavour; 17] = [
    Flavour::Plain,
    Flavour::Plain,
    Flavour::Clustered,
    Flavour::Clustered,
    Flavour::Lopsided,
    Flavour::Ties,
    Flavour::Ties,
    Flavour::Repeated,
    Flavour::Rounded,
    Flavour::Offset,
    Flavour::Powers,
    Flavour::Permuted,
    Flavour::Permuted,
    Flavour::Huge,
    Flavour::Tiny,
    Flavour::Special,
    Flavour::Bits,
];

const SPECIALS: [f32; 16] = [
    f32::NAN,
    f32::INFINITY,
    f32::NEG_INFINITY,
    -0.0,
    0.0,
    f32::MAX,
    f32::MIN,
    f32::MIN_POSITIVE,
    1e-45,
    -1e-40,
    1.844_674_3e19,
    1.844_674_4e19,
    -1.3e19,
    1e30,
    16_777_216.0,
    f32::EPSILON,
];

/// What rows and centroids of one case have in common, so that they are comparable.
#[derive(Clone, Debug)]
pub struct Source {
    pub flavour: Flavour,
    centres: Vec<f32>,
    dim: usize,
}

impl Source {
    pub fn new(random: &mut Random, dim: u32) -> Self {
        let flavour = random.choose(&FLAVOURS);
        // Refused calls may carry any dim, and need no more than some values.
        let dim = dim.clamp(1, 64) as usize;
        let kinds = random.between(1, 5) as usize;
        let spread = match flavour {
            Flavour::Repeated => 3.0,
            _ => 50.0,
        };
        let centre = |random: &mut Random| random.float(-spread, spread).round();
        Self {
            flavour,
            centres: (0..kinds * dim).map(|_| centre(random)).collect(),
            dim,
        }
    }

    /// Row after row, cut to the count: a refused call may ask for a part of one.
    pub fn values(&self, random: &mut Random, count: usize) -> Vec<f32> {
        let mut values = Vec::with_capacity(count + self.dim);
        while values.len() < count {
            self.row(random, &mut values);
        }
        values.truncate(count);
        values
    }

    fn row(&self, random: &mut Random, values: &mut Vec<f32>) {
        let kinds = (self.centres.len() / self.dim) as u32;
        let kind = match self.flavour {
            Flavour::Lopsided if !random.once_in(8) => 0,
            _ => random.below(kinds) as usize,
        };
        let centre = &self.centres[kind * self.dim..(kind + 1) * self.dim];
        if self.flavour == Flavour::Permuted {
            values.extend(permuted(random, &self.centres[..self.dim]));
        } else {
            values.extend(centre.iter().map(|&at| self.value(random, at)));
        }
    }

    fn value(&self, random: &mut Random, centre: f32) -> f32 {
        match self.flavour {
            Flavour::Plain => random.float(-10.0, 10.0),
            Flavour::Clustered | Flavour::Lopsided => centre + random.float(-1.0, 1.0),
            Flavour::Ties => random.below(4) as f32,
            Flavour::Repeated | Flavour::Permuted => centre,
            Flavour::Rounded => (4_096 + random.below(8)) as f32,
            Flavour::Offset => 1_000.0 + random.float(0.0, 0.05),
            Flavour::Powers => sign(random) * power_of_two(random.below(61) as i32 - 30),
            Flavour::Huge => sign(random) * random.float(0.1e19, 3.0e19),
            Flavour::Tiny => sign(random) * power_of_two(-60 - random.below(90) as i32),
            Flavour::Special if random.once_in(6) => random.choose(&SPECIALS),
            Flavour::Special => random.below(5) as f32 - 2.0,
            Flavour::Bits => f32::from_bits(random.next_u32()),
        }
    }
}

/// Some centroids become copies of rows, so that distances of zero and equal ones are met.
pub fn copy_some(random: &mut Random, rows: &[f32], centroids: &mut [f32], dim: u32) {
    let dim = dim.clamp(1, 64) as usize;
    if rows.len() < dim {
        return;
    }
    for centroid in centroids.chunks_exact_mut(dim) {
        if random.once_in(2) {
            let row = random.below((rows.len() / dim) as u32) as usize;
            centroid.copy_from_slice(&rows[row * dim..(row + 1) * dim]);
        }
    }
}

fn permuted(random: &mut Random, centre: &[f32]) -> Vec<f32> {
    // Tenths of whole numbers are inexact, so that their sums round.
    let mut values: Vec<f32> = centre.iter().map(|at| at / 10.0).collect();
    if random.once_in(12) {
        values.fill(random.below(3) as f32 / 10.0);
    }
    for i in (1..values.len()).rev() {
        values.swap(i, random.between(0, i as u32) as usize);
    }
    values
}

/// Made from bits, since `powi` passes through infinity on its way to the smallest ones.
pub fn power_of_two(exponent: i32) -> f32 {
    match exponent {
        -149..=-127 => f32::from_bits(1 << (exponent + 149)),
        _ => f32::from_bits(((exponent + 127) as u32) << 23),
    }
}

pub fn sign(random: &mut Random) -> f32 {
    random.choose(&[1.0, -1.0])
}
