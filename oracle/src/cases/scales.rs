//! Readings at many scales, and at those where a sum of squares has no root to be divided by.

use super::values::{power_of_two, sign};
use crate::random::Random;

pub const GAINS: &str = "gain-only rows";
pub const LARGE: &str = "norms around the largest";

/// How readings are made anew, and the kind that a tally names.
type Making = (&'static str, fn(&mut Random, &mut [f32], usize));

const MAKINGS: [Making; 10] = [
    ("readings as they are", |_, _, _| ()),
    (GAINS, gains),
    ("one scale for all rows", one_scale),
    ("a scale for each row", own_scales),
    ("a scale for one row", one_row),
    ("rows of zeros", zeros),
    ("norms around the smallest", small),
    (LARGE, large),
    ("values that are not finite", not_finite),
    ("a few rows again and again", few),
];

/// Makes the readings of a case anew in one of these ways; answers its kind.
pub fn remake(random: &mut Random, values: &mut [f32], dim: u32) -> &'static str {
    let (kind, make) = random.choose(&MAKINGS);
    make(random, values, dim.clamp(1, 64) as usize);
    kind
}

/// From 2^-60 to 2^60.
fn scale(random: &mut Random) -> f32 {
    power_of_two(random.below(121) as i32 - 60)
}

fn times(row: &mut [f32], scale: f32) {
    for value in row {
        *value *= scale;
    }
}

/// One to three shapes, each row one of them times a gain of its own: a number near 1, or any scale.
fn gains(random: &mut Random, values: &mut [f32], dim: usize) {
    let shapes: Vec<f32> = (0..random.between(1, 3) as usize * dim)
        .map(|_| random.float(-1.0, 1.0))
        .collect();
    let near = random.once_in(2);
    for row in values.chunks_mut(dim) {
        let shape = random.below((shapes.len() / dim) as u32) as usize;
        let gain = match near {
            true => random.float(0.1, 10.0),
            false => scale(random),
        };
        row.copy_from_slice(&shapes[shape * dim..][..row.len()]);
        times(row, gain);
    }
}

fn one_scale(random: &mut Random, values: &mut [f32], _dim: usize) {
    times(values, scale(random));
}

fn own_scales(random: &mut Random, values: &mut [f32], dim: usize) {
    for row in values.chunks_mut(dim) {
        times(row, scale(random));
    }
}

fn one_row(random: &mut Random, values: &mut [f32], dim: usize) {
    let row = random.below(values.len().div_ceil(dim).max(1) as u32) as usize;
    for row in values.chunks_mut(dim).skip(row).take(1) {
        times(row, scale(random));
    }
}

/// Some rows become zeros of either sign.
fn zeros(random: &mut Random, values: &mut [f32], dim: usize) {
    for row in values.chunks_mut(dim) {
        if random.once_in(2) {
            row.fill_with(|| 0.0 * sign(random));
        }
    }
}

/// Squares from 2^-120 down to nothing, past the end of the normal range at 2^-126.
fn small(random: &mut Random, values: &mut [f32], _dim: usize) {
    for value in values {
        let size = random.float(1.0, 2.0) * power_of_two(-60 - random.below(18) as i32);
        *value = sign(random) * size;
    }
}

/// Squares from 2^120 up to infinity. Rows of either sign have a mean that is smaller than they are.
fn large(random: &mut Random, values: &mut [f32], _dim: usize) {
    for value in values {
        let size = random.float(1.0, 2.0) * power_of_two(60 + random.below(5) as i32);
        *value = sign(random) * size;
    }
}

fn not_finite(random: &mut Random, values: &mut [f32], _dim: usize) {
    for value in values {
        if random.once_in(12) {
            *value = random.choose(&[f32::NAN, f32::INFINITY, f32::NEG_INFINITY]);
        }
    }
}

/// At most three rows of any scale, with -0.0 among their values: where there are more clusters, some are empty and refilled.
fn few(random: &mut Random, values: &mut [f32], dim: usize) {
    let kinds = random.between(1, 3) as usize;
    let scale = scale(random);
    let value = |random: &mut Random| match random.once_in(4) {
        true => -0.0,
        false => random.float(-1.0, 1.0) * scale,
    };
    let rows: Vec<f32> = (0..kinds * dim).map(|_| value(random)).collect();
    for row in values.chunks_mut(dim) {
        let kind = random.below(kinds as u32) as usize;
        row.copy_from_slice(&rows[kind * dim..][..row.len()]);
    }
}
