//! The exported root against that of the standard library, which is the nearest float: over patterns of 32 bits, any NaN being as good
//! as any other.

use std::thread;

use engine::exported;
use engine::stack::on_thread;
use oracle::cases::float_bits;
use oracle::random::Random;

use crate::tally::{Need, Tally, SHOWN};

/// What a pattern is, in the order of `kind_of`.
const KINDS: [&str; 6] = [
    "zeros",
    "below zero",
    "subnormal",
    "normal",
    "infinity",
    "NaN",
];

/// What a run of some patterns has to meet.
const NEEDS: [Need; 6] = [
    (KINDS[0], 2),
    (KINDS[1], 1_000_000),
    (KINDS[2], 10_000),
    (KINDS[3], 1_000_000),
    (KINDS[4], 1),
    (KINDS[5], 1_000),
];

fn kind_of(x: f32) -> usize {
    match x {
        _ if x.is_nan() => 5,
        0.0 => 0,
        _ if x < 0.0 => 1,
        f32::INFINITY => 4,
        _ if x.is_subnormal() => 2,
        _ => 3,
    }
}

/// How many patterns of each kind there were, how many roots differ, and the first of these.
#[derive(Default)]
struct Held {
    met: [u64; KINDS.len()],
    failed: u64,
    shown: Vec<u32>,
}

fn hold(root: impl Fn(f32) -> f32, patterns: impl Iterator<Item = u32>) -> Held {
    let mut held = Held::default();
    for bits in patterns {
        let x = f32::from_bits(bits);
        held.met[kind_of(x)] += 1;
        if float_bits(root(x)) != float_bits(x.sqrt()) {
            held.failed += 1;
            if held.failed <= SHOWN {
                held.shown.push(bits);
            }
        }
    }
    held
}

const MANTISSA: u32 = 1 << 23;
const EXPONENTS: u32 = 1 << 9;

/// How many mantissas of each exponent are tried between its ends, and how many at either end.
const SPREAD: u32 = 4_096;
const END: u32 = 64;

/// Patterns at both ends of the exponent, where powers of two are, and spread in between; the sign is the exponent's highest bit.
fn of_exponent(exponent: u32) -> impl Iterator<Item = u32> {
    let random = &mut Random::new(1, 98, exponent.into());
    let step = MANTISSA / SPREAD;
    let spread: Vec<u32> = (0..SPREAD)
        .map(|part| part * step + random.below(step))
        .collect();
    let ends = (0..END).chain(MANTISSA - END..MANTISSA);
    ends.chain(spread)
        .map(move |mantissa| exponent << 23 | mantissa)
}

/// The patterns on either side of the square, taken to scales of both parities.
fn around_square(root: f64) -> impl Iterator<Item = u32> {
    // Through all exponents of a normal float, with the least and the most of them.
    let exponents = [-126, -125, -64, -1, 0, 1, 2, 63, 126, 127];
    exponents.into_iter().flat_map(move |exponent| {
        let square = root * root;
        let scaled = square / 2f64.powi(square.log2().floor() as i32) * 2f64.powi(exponent);
        let bits = (scaled as f32).to_bits();
        [bits.saturating_sub(1), bits, bits + 1]
    })
}

/// Every exponent, exact squares, squares halfway between two roots, where the nearest root changes, powers of two that are subnormal, and
/// both ends of what is above zero.
fn some() -> impl Iterator<Item = u32> {
    let exponents = (0..EXPONENTS).flat_map(of_exponent);
    let exact = (1..=4_096).map(f64::from);
    let random = &mut Random::new(1, 99, 0);
    let halves: Vec<f64> = (0..65_536)
        .map(|_| f64::from(MANTISSA + random.below(MANTISSA)) + 0.5)
        .collect();
    let squares = exact.chain(halves).flat_map(around_square);
    let powers = (1..23).flat_map(|bit| [(1 << bit) - 1, 1 << bit, (1 << bit) + 1]);
    let infinity = f32::INFINITY.to_bits();
    let ends = (0..65_536).chain(infinity - 65_536..=infinity);
    exponents.chain(squares).chain(powers).chain(ends)
}

fn tally_of(held: Held) -> Tally {
    for bits in held.shown {
        let x = f32::from_bits(bits);
        let (ours, nearest) = (exported::root(x), x.sqrt());
        println!("the root of {x:e} ({bits:08x}) differs: {ours:e}, nearest {nearest:e}");
    }
    let mut tally = Tally::default();
    for (kind, times) in KINDS.into_iter().zip(held.met) {
        tally.meet_times(kind.into(), times);
    }
    tally.passed = held.met.iter().sum::<u64>() - held.failed;
    tally.failed = held.failed;
    tally
}

/// Some millions of patterns; whether all agree.
pub fn compare_some() -> bool {
    let mut tally = tally_of(hold(exported::root, some()));
    tally.need("roots", &NEEDS);
    tally.report("roots");
    tally.failed == 0
}

/// All patterns, on two threads; whether they agree.
pub fn compare_all() -> bool {
    // Every other pattern, since a root of a number below zero takes less time.
    let halves = thread::scope(|scope| {
        let halves = [0, 1].map(|first| (first..=u32::MAX).step_by(2));
        let threads = halves.map(|half| scope.spawn(|| hold(exported::root, half)));
        threads.map(|thread| thread.join().expect("a half is held"))
    });
    let mut both = Held::default();
    for half in halves {
        for (all, times) in both.met.iter_mut().zip(half.met) {
            *all += times;
        }
        both.failed += half.failed;
        both.shown.extend(half.shown);
    }
    let tally = tally_of(both);
    tally.report("all roots");
    tally.failed == 0
}

/// One pattern of each exponent on a thread of so much stack: how many agree and how many do not.
pub fn hold_on(stack: usize) -> (usize, usize) {
    let exponents = (0..EXPONENTS).filter_map(|exponent| of_exponent(exponent).last());
    let tally = tally_of(on_thread(stack, || hold(exported::root, exponents)));
    (tally.passed as usize, tally.failed as usize)
}

#[cfg(test)]
mod tests {
    use super::*;

    /// How many patterns show a root that is another than the nearest where `off` says so.
    fn seen(off: fn(f32, f32) -> f32) -> u64 {
        hold(|x| off(x, x.sqrt()), some()).failed
    }

    fn next(root: f32) -> f32 {
        f32::from_bits(root.to_bits() + 1)
    }

    #[test]
    fn the_nearest_root_agrees_and_every_kind_is_met() {
        let mut tally = tally_of(hold(f32::sqrt, some()));
        tally.need("some", &NEEDS);
        assert_eq!(tally.failed, 0);
    }

    #[test]
    fn a_root_that_is_off_is_seen() {
        let two = seen(|x, root| if x == 2.0 { next(root) } else { root });
        assert!((1..100).contains(&two), "{two}");
        // One mantissa at every exponent, and roots that are never rounded up.
        let one = |x: f32, root: f32| match x.to_bits() << 9 == 1 << 9 {
            true => next(root),
            false => root,
        };
        assert!(seen(one) > 200);
        let cut = |x: f32, root: f32| match f64::from(root).powi(2) > f64::from(x) {
            true => f32::from_bits(root.to_bits() - 1),
            false => root,
        };
        assert!(seen(cut) > 100_000);
    }

    #[test]
    fn ends_that_are_off_are_seen() {
        assert!(seen(|x, root| if x == 0.0 { 0.0 } else { root }) > 0);
        assert!(
            seen(|x, root| if x < 0.0 { -root } else { root }) == 0,
            "a NaN is a NaN"
        );
        assert!(seen(|x, root| if x < 0.0 { 0.0 } else { root }) > 1_000_000);
        assert!(seen(|x, root| if x == f32::INFINITY { f32::MAX } else { root }) > 0);
        assert!(seen(|x, root| if x.is_subnormal() { 0.0 } else { root }) > 10_000);
    }
}
