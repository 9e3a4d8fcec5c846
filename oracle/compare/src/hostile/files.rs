//! Batch files that were made and then damaged, some of them past recognition.

use oracle::batch::{read, MAX_FILE_BYTES, TRAILER_BYTES};
use oracle::calls::{self, GroupingNumbers, SPLIT_BUDGET};
use oracle::cases::file_of;
use oracle::random::Random;

use super::{any_float, draws, wild, Floats, ENOUGH, FAR};
use crate::files::{hold, Lister};
use crate::tally::{Need, Tally};

/// Products that the splits of a file may cost together.
const COST: u64 = 200_000;

const CELLS: u32 = 9;
const BUDGET_CELL: usize = 8;

const NEEDS: [Need; 9] = [
    ("accepted", 100),
    ("refused 1", 20),
    ("refused 4", 20),
    ("refused 6", 20),
    ("refused 7", 20),
    ("refused 8", 200),
    ("refused 9", 20),
    ("the longest file", 1),
    ("a file too long", 1),
];

/// The ranges of the trailer's cells that are numbers of a grouping, by their places.
const RANGES: [(usize, calls::Range); 6] = [
    (2, calls::ROWS),
    (3, calls::DIM),
    (4, calls::DRAW_COUNT),
    (5, calls::SIZE_LIMIT),
    (6, calls::K),
    (BUDGET_CELL, SPLIT_BUDGET),
];

fn sound(random: &mut Random) -> Vec<u8> {
    let numbers = GroupingNumbers {
        rows: random.small(0, 24),
        dim: random.small(1, 5),
        size_limit: random.small(0, 12),
        branching: random.small(1, 5),
        weight: any_float(random),
        budget: random.small(0, 12),
        spherical: 0,
    };
    let count = (numbers.rows * numbers.dim) as usize;
    let values = Floats::new(random).many(random, count);
    let draws = draws(random);
    let bare = 4 * (values.len() + draws.len()) + TRAILER_BYTES;
    let length = match random.below(200) {
        0 => MAX_FILE_BYTES - bare,
        1 => MAX_FILE_BYTES + 1 - bare,
        _ => random.small(0, 20) as usize,
    };
    let remark: Vec<u8> = (0..length).map(|_| random.next_u32() as u8).collect();
    file_of(&remark, &numbers, &values, &draws)
}

/// Where a cell of the trailer stands, if the file is long enough to have one.
fn cell_at(file: &[u8], cell: usize) -> Option<usize> {
    Some(file.len().checked_sub(TRAILER_BYTES)? + 4 * cell)
}

fn cell(file: &[u8], cell: usize) -> u32 {
    let Some(at) = cell_at(file, cell) else {
        return 0;
    };
    u32::from_le_bytes([file[at], file[at + 1], file[at + 2], file[at + 3]])
}

fn set_cell(file: &mut [u8], cell: usize, number: u32) {
    if let Some(at) = cell_at(file, cell) {
        file[at..at + 4].copy_from_slice(&number.to_le_bytes());
    }
}

/// Any number to any cell, or one near what stands there.
fn change_cell(random: &mut Random, file: &mut [u8]) {
    let which = random.below(CELLS) as usize;
    let (length, was) = (file.len() as u32, cell(file, which));
    let far = random.choose(&FAR);
    let any = random.next_u32();
    let near = random.choose(&[1, 4, u32::MAX, u32::MAX - 3]);
    let chosen = [0, 1, length, far, any, was.wrapping_add(near), was ^ far];
    set_cell(file, which, random.choose(&chosen));
}

/// A number at or past the end of its range; a weight of any bits otherwise.
fn change_number(random: &mut Random, file: &mut [u8]) {
    let (which, range) = random.choose(&RANGES);
    let number = wild(random, range);
    set_cell(file, which, number);
    if random.once_in(4) {
        set_cell(file, 7, random.next_u32());
    }
}

/// Starts that fit rows, dim and draws of any size when sums and products are taken in 32 bits.
fn wrap(random: &mut Random, file: &mut [u8]) {
    set_cell(file, 2, wild(random, calls::ROWS));
    set_cell(file, 3, wild(random, calls::DIM));
    let values = cell(file, 2).wrapping_mul(cell(file, 3)).wrapping_mul(4);
    let draws = cell(file, 4).wrapping_mul(4);
    let trailer = (file.len() as u32).wrapping_sub(TRAILER_BYTES as u32);
    let draws_start = trailer.wrapping_sub(draws);
    set_cell(file, 1, draws_start);
    set_cell(file, 0, draws_start.wrapping_sub(values));
}

/// A stretch of the file, of any place and at most this length.
fn stretch(random: &mut Random, file: &[u8], most: u32) -> std::ops::Range<usize> {
    let start = random.below(file.len() as u32 + 1) as usize;
    let end = (start + random.below(most) as usize).min(file.len());
    start..end
}

fn damage(random: &mut Random, file: &mut Vec<u8>) {
    match random.below(12) {
        0 | 1 if !file.is_empty() => {
            let at = random.below(file.len() as u32) as usize;
            file[at] ^= 1 << random.below(8);
        }
        2 | 3 => change_cell(random, file),
        4 | 5 => change_number(random, file),
        6 => wrap(random, file),
        7 => file.truncate(random.below(file.len() as u32 + 1) as usize),
        8 => drop(file.drain(stretch(random, file, 40))),
        9 => {
            let again = file[stretch(random, file, 80)].to_vec();
            let at = random.below(file.len() as u32 + 1) as usize;
            file.splice(at..at, again);
        }
        10 => {
            let swapped = (random.below(CELLS) as usize, random.below(CELLS) as usize);
            let cells = (cell(file, swapped.0), cell(file, swapped.1));
            set_cell(file, swapped.0, cells.1);
            set_cell(file, swapped.1, cells.0);
        }
        _ => {
            let place = stretch(random, file, 80);
            file[place].fill_with(|| random.next_u32() as u8);
        }
    }
}

/// Brings the budget of a file that would be taken down to what is affordable: rows that never part would cost seconds.
fn temper(file: &mut [u8]) {
    let Ok(batch) = read(file) else {
        return;
    };
    let numbers = batch.numbers;
    let training = numbers.rows.min(numbers.branching.saturating_mul(256));
    let one = [numbers.dim, numbers.branching]
        .iter()
        .fold(100 * u64::from(training), |cost, &number| {
            cost.saturating_mul(number.into())
        });
    let affordable = (COST / one.max(1)).min(SPLIT_BUDGET.high.into()) as u32;
    if numbers.budget <= SPLIT_BUDGET.high {
        set_cell(file, BUDGET_CELL, numbers.budget.min(affordable));
    }
}

/// One file: sound in one of sixteen, any bytes in another, else damaged in up to four places.
pub fn file(seed: u64, index: u64) -> Vec<u8> {
    let random = &mut Random::new(seed, 95, index);
    let mut file = sound(random);
    match random.below(16) {
        0 => (),
        1 => {
            file.truncate(random.small(0, 400) as usize);
            file.fill_with(|| random.next_u32() as u8);
        }
        _ => {
            for _ in 0..random.small(1, 4) {
                damage(random, &mut file);
            }
        }
    }
    temper(&mut file);
    file
}

pub fn compare(lister: &mut Lister, seed: u64, count: u64) -> Tally {
    let mut tally = Tally::default();
    for index in 0..count {
        let name = format!("hostile file of seed {seed} index {index}");
        hold(&mut tally, &name, lister, &file(seed, index));
    }
    if count >= ENOUGH {
        tally.need("hostile files", &NEEDS);
    }
    tally.report("hostile files");
    tally
}
