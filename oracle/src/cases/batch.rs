//! Cases of the program: whole files.

use super::grouping::usual_numbers;
use super::{outside, Case, GroupingCase};
use crate::batch::{listing, MAX_FILE_BYTES, TRAILER_BYTES};
use crate::calls::{GroupingNumbers, DIM, K, ROWS, SIZE_LIMIT, SPLIT_BUDGET};
use crate::random::Random;

#[derive(Clone, Debug, PartialEq, Eq)]
pub struct BatchCase {
    pub file: Vec<u8>,
}

/// The trailer's cells, which a damaged file may have changed.
type Trailer = [u32; 9];

fn trailer_of(remark: usize, numbers: &GroupingNumbers, values: usize, draws: usize) -> Trailer {
    [
        remark as u32,
        (remark + 4 * values) as u32,
        numbers.rows,
        numbers.dim,
        draws as u32,
        numbers.size_limit,
        numbers.branching,
        numbers.weight.to_bits(),
        numbers.budget,
    ]
}

fn bytes_of(remark: &[u8], values: &[f32], draws: &[u32], trailer: &Trailer) -> Vec<u8> {
    let mut file = remark.to_vec();
    file.extend(values.iter().flat_map(|v| v.to_le_bytes()));
    file.extend(draws.iter().flat_map(|d| d.to_le_bytes()));
    file.extend(trailer.iter().flat_map(|cell| cell.to_le_bytes()));
    file
}

/// The file of a batch; well shaped where there are rows·dim values.
pub fn file_of(remark: &[u8], numbers: &GroupingNumbers, values: &[f32], draws: &[u32]) -> Vec<u8> {
    let trailer = trailer_of(remark.len(), numbers, values.len(), draws.len());
    bytes_of(remark, values, draws, &trailer)
}

fn remark(random: &mut Random) -> Vec<u8> {
    let length = random.choose(&[0, 0, 1, 3, 4, 40]);
    (0..length).map(|_| random.next_u32() as u8).collect()
}

/// A file of the right shape whose numbers may be out of range.
fn well_shaped(random: &mut Random) -> Vec<u8> {
    let numbers = usual_numbers(random);
    let mut case = GroupingCase::of(random, numbers);
    let remark = remark(random);
    match random.below(40) {
        0 => case.numbers.size_limit = outside(random, SIZE_LIMIT),
        1 => case.numbers.branching = outside(random, K),
        2 => case.numbers.budget = outside(random, SPLIT_BUDGET),
        3 => resize(random, &mut case, false),
        4 => resize(random, &mut case, true),
        _ => {}
    }
    if random.once_in(16) {
        case.draws = vec![1; random.choose(&[0, 0, 4_097])];
    }
    file_of(&remark, &case.numbers, &case.values, &case.draws)
}

/// Rows and dim of which one is out of range, with the bytes that they ask for: none if the
/// other is zero.
fn resize(random: &mut Random, case: &mut GroupingCase, with_bytes: bool) {
    let numbers = &mut case.numbers;
    (numbers.rows, numbers.dim) = match (with_bytes, random.once_in(2)) {
        (false, true) => (0, outside(random, DIM)),
        (false, false) => (random.choose(&[0, 5, 5_000, u32::MAX]), 0),
        (true, true) => (outside(random, ROWS).min(5_000), 1),
        (true, false) => (2, outside(random, DIM).min(5_000)),
    };
    let values = numbers.rows as u64 * numbers.dim as u64;
    case.values.resize(values as usize, 2.5);
}

fn damage(random: &mut Random, file: &mut Vec<u8>) {
    match random.below(6) {
        0 => flip(random, file, 0),
        1 | 2 => {
            let start = file.len() - TRAILER_BYTES;
            flip(random, file, start);
        }
        3 => {
            let length = random.below(file.len() as u32) as usize;
            file.truncate(length);
        }
        4 => {
            let extra = random.choose(&[1, 4, 36]);
            file.extend(std::iter::repeat_n(0, extra));
        }
        _ => overwrite(random, file),
    }
}

/// Leaves the budget alone, which if larger would make a stubborn batch cost seconds.
fn flip(random: &mut Random, file: &mut [u8], start: usize) {
    let end = file.len() - 4;
    let at = start + random.below((end - start) as u32) as usize;
    file[at] ^= 1 << random.below(8);
}

/// Leaves the budget alone too.
fn overwrite(random: &mut Random, file: &mut [u8]) {
    let at = file.len() - TRAILER_BYTES + 4 * random.below(8) as usize;
    let any = random.next_u32();
    let length = file.len() as u32;
    let cell = random.choose(&[0, 1, length, 1 << 30, 1 << 31, u32::MAX, any]);
    file[at..at + 4].copy_from_slice(&cell.to_le_bytes());
}

/// Numbers whose products or sums fit the file only if they wrap round at 32 or 64 bits.
fn wrapping(trailer: &[(usize, u32)]) -> BatchCase {
    let numbers = GroupingNumbers {
        rows: 0,
        dim: 1,
        size_limit: 2,
        branching: 2,
        weight: 0.0,
        budget: 4,
        spherical: 0,
    };
    let mut cells = trailer_of(0, &numbers, 0, 1);
    for &(cell, value) in trailer {
        cells[cell] = value;
    }
    BatchCase {
        file: bytes_of(&[], &[], &[0], &cells),
    }
}

/// One group of 4,096 rows with a remark that fills the file up to the length.
fn long_file(length: usize) -> BatchCase {
    let numbers = GroupingNumbers {
        rows: ROWS.high,
        dim: 3,
        size_limit: SIZE_LIMIT.high,
        branching: 2,
        weight: 0.0,
        budget: 0,
        spherical: 0,
    };
    let values: Vec<f32> = (0..3 * ROWS.high).map(|i| i as f32).collect();
    let draws = [7, 8];
    let rest = TRAILER_BYTES + 4 * (values.len() + draws.len());
    let remark = vec![b'r'; length - rest];
    BatchCase {
        file: file_of(&remark, &numbers, &values, &draws),
    }
}

impl Case for BatchCase {
    type Outcome = Vec<u8>;
    const NAME: &'static str = "batch";

    fn generate(seed: u64, index: u64) -> Self {
        let random = &mut Random::new(seed, 7, index);
        let mut file = well_shaped(random);
        if random.once_in(4) {
            damage(random, &mut file);
        }
        Self { file }
    }

    fn built() -> Vec<Self> {
        let mut cases: Vec<Self> = GroupingCase::built()
            .iter()
            .map(|case| Self {
                file: file_of(b"lot 7", &case.numbers, &case.values, &case.draws),
            })
            .collect();
        // Rows·dim of 2^62, 2^32 and 2^30: four times them is 0 in 64 or 32 bits.
        for (rows, dim) in [(1 << 31, 1 << 31), (1 << 16, 1 << 16), (1 << 15, 1 << 15)] {
            cases.push(wrapping(&[(2, rows), (3, dim)]));
        }
        // Starts and counts that pass 32 bits.
        cases.push(wrapping(&[(0, u32::MAX - 3), (2, 1)]));
        cases.push(wrapping(&[(4, 1 << 30)]));
        cases.push(wrapping(&[(4, (1 << 30) + 1)]));
        for length in [MAX_FILE_BYTES, MAX_FILE_BYTES + 1] {
            cases.push(long_file(length));
        }
        for length in [0, 1, TRAILER_BYTES - 1, TRAILER_BYTES, MAX_FILE_BYTES + 1] {
            cases.push(Self {
                file: vec![0; length],
            });
        }
        cases
    }

    fn run(&self) -> Vec<u8> {
        listing(&self.file)
    }

    fn number(outcome: &Vec<u8>) -> u32 {
        let text = std::str::from_utf8(outcome).unwrap();
        let refused = text.strip_prefix("refused ");
        refused.map_or(0, |number| number.trim_end().parse().unwrap())
    }
}
