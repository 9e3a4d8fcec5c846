//! Input that nobody means well with: any bytes, lengths and numbers, to the exported functions and to the listing program, result files among them.
//! Both sides are still compared, so a wrong answer shows as well as a wrong access.

use oracle::calls::Range;
use oracle::random::Random;

pub mod calls;
pub mod files;
mod results;

/// A run of as many cases has to meet each kind of answer; a shorter one may miss some.
const ENOUGH: u64 = 2_000;

/// Numbers near which sums and products of 16, 32 or 64 bits turn round.
const FAR: [u32; 10] = [
    255,
    256,
    65_535,
    65_536,
    (1 << 30) - 1,
    1 << 30,
    (1 << 31) - 1,
    1 << 31,
    u32::MAX - 1,
    u32::MAX,
];

/// Any number, and those more often at which something changes.
fn wild(random: &mut Random, range: Range) -> u32 {
    match random.below(8) {
        0 => range.low,
        1 => range.high,
        2 => range.low.wrapping_sub(1),
        3 => range.high + 1,
        4 => random.choose(&FAR),
        5 => random
            .choose(&FAR)
            .wrapping_add(random.between(range.low, range.high)),
        6 => random.next_u32(),
        _ => random.next_u32() >> random.below(32),
    }
}

/// How many of a call's numbers are wild.
#[derive(Clone, Copy)]
enum Mood {
    Tame,
    /// About one.
    Odd {
        of: u32,
    },
    Wild,
}

impl Mood {
    fn new(random: &mut Random, of: u32) -> Self {
        match random.below(8) {
            0..=3 => Mood::Tame,
            4..=6 => Mood::Odd { of },
            _ => Mood::Wild,
        }
    }

    /// A number of the range, small as a rule.
    fn number(self, random: &mut Random, range: Range, usual: u32) -> u32 {
        let is_wild = match self {
            Mood::Tame => false,
            Mood::Odd { of } => random.once_in(of),
            Mood::Wild => !random.once_in(4),
        };
        match is_wild {
            true => wild(random, range),
            false => random.small(range.low, usual),
        }
    }
}

/// What the floats of a call or a file look like.
#[derive(Clone, Copy)]
enum Floats {
    Bits,
    Whole,
    Ends,
    One(f32),
}

const ENDS: [f32; 12] = [
    f32::NAN,
    f32::INFINITY,
    f32::NEG_INFINITY,
    0.0,
    -0.0,
    1.0,
    f32::MAX,
    f32::MIN,
    f32::MIN_POSITIVE,
    1e-45,
    1.844_674_3e19,
    16_777_217.0,
];

impl Floats {
    fn new(random: &mut Random) -> Self {
        match random.below(6) {
            0 | 1 => Floats::Bits,
            2 | 3 => Floats::Whole,
            4 => Floats::Ends,
            _ => Floats::One(any_float(random)),
        }
    }

    fn one(self, random: &mut Random) -> f32 {
        match self {
            Floats::Bits => f32::from_bits(random.next_u32()),
            Floats::Whole => random.below(16) as f32 - 4.0,
            Floats::Ends => random.choose(&ENDS),
            Floats::One(float) => float,
        }
    }

    fn many(self, random: &mut Random, count: usize) -> Vec<f32> {
        (0..count).map(|_| self.one(random)).collect()
    }
}

fn any_float(random: &mut Random) -> f32 {
    match random.below(3) {
        0 => f32::from_bits(random.next_u32()),
        1 => random.choose(&ENDS),
        _ => random.choose(&[1e-9, 0.1, 0.25, 0.5, 1.0, 3.0, -0.5, -1.0]),
    }
}

/// Zero half of the time, and else any number: none of them is refused.
fn any_number(random: &mut Random) -> u32 {
    let (far, any) = (random.choose(&FAR), random.next_u32());
    random.choose(&[0, 0, far, any])
}

/// A draw list of any length, mostly one that is taken.
fn draws(random: &mut Random) -> Vec<u32> {
    let count = match random.below(24) {
        0 => 0,
        1 => random.choose(&[4_095, 4_096]),
        2 => random.choose(&[4_097, 5_000]),
        _ => random.small(1, 20),
    };
    let small = random.once_in(2);
    let draw = |random: &mut Random| match small {
        true => random.below(8),
        false => random.next_u32(),
    };
    (0..count).map(|_| draw(random)).collect()
}
