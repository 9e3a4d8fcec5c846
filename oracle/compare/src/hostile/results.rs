//! Result files and groupings to be written, made and then damaged, or never sound at all.

use oracle::calls;
use oracle::cases::{Case, ReadResultCase, ResultNumbersCase, WriteResultCase};
use oracle::random::Random;
use oracle::results::{ResultNumbers, TRAILER_BYTES};

use super::calls::Means;
use super::{wild, Floats, Mood, FAR};
use crate::tally::Need;

pub const WRITE_NEEDS: [Need; 4] = [
    ("accepted", 50),
    ("refused 1", 50),
    ("refused 2", 50),
    ("refused 10", 50),
];
pub const NUMBERS_NEEDS: [Need; 2] = [("accepted", 50), ("refused 10", 50)];
pub const READ_NEEDS: [Need; 3] = [("accepted", 50), ("refused 2", 50), ("refused 10", 50)];

/// The trailer's cells.
const CELLS: u32 = 6;

/// A cell of 16 bits: any, one at an end of its range, or near the rows.
fn half(random: &mut Random, rows: u32) -> u16 {
    let near = (rows as u16)
        .wrapping_add(random.below(3) as u16)
        .wrapping_sub(1);
    let any = random.next_u32() as u16;
    random.choose(&[any, near, near, 0, 4_096, 65_534, 65_535])
}

fn word(random: &mut Random) -> u32 {
    Floats::new(random).one(random).to_bits()
}

fn sound(random: &mut Random) -> WriteResultCase {
    let rows = random.small(0, 24);
    let groups = random.between(rows.min(1), rows);
    let dim = random.small(1, 6);
    WriteResultCase::of(random, rows, dim, groups)
}

/// Numbers, cells and lengths that have nothing to do with each other but by chance.
fn lawless(random: &mut Random) -> WriteResultCase {
    let mood = Mood::new(random, 3);
    let means = Means::new(random);
    let numbers = ResultNumbers {
        rows: mood.number(random, calls::ROWS, 24),
        dim: mood.number(random, calls::DIM, 6),
        groups: mood.number(random, calls::ROWS, 24),
    };
    let ResultNumbers { rows, dim, .. } = numbers;
    let halves = |random: &mut Random| -> Vec<u16> {
        let cells = means.length(random, &[rows]);
        (0..cells).map(|_| half(random, rows)).collect()
    };
    WriteResultCase {
        numbers,
        order: halves(random),
        ends: halves(random),
        means: {
            let cells = means.length(random, &[rows, dim]);
            (0..cells).map(|_| word(random)).collect()
        },
        file_bytes: means.near(random, numbers.file_bytes()),
        wrong: vec![],
    }
}

/// Changes a cell, a number or a length.
fn spoil(random: &mut Random, case: &mut WriteResultCase) {
    let rows = case.numbers.rows;
    let mut place = |length: usize| (length > 0).then(|| random.below(length as u32) as usize);
    let (row, end, mean) = (
        place(case.order.len()),
        place(case.ends.len()),
        place(case.means.len()),
    );
    match (random.below(8), row, end, mean) {
        (0, Some(at), ..) => case.order[at] = half(random, rows),
        (1, _, Some(at), _) => case.ends[at] = half(random, rows),
        (2, _, _, Some(at)) => case.means[at] = word(random),
        (3, ..) => case.numbers.rows = wild(random, calls::ROWS),
        (4, ..) => case.numbers.dim = wild(random, calls::DIM),
        (5, ..) => case.numbers.groups = wild(random, calls::ROWS),
        (6, ..) => case.file_bytes = Means::new(random).near(random, case.numbers.file_bytes()),
        (_, Some(at), ..) => drop(case.order.remove(at)),
        _ => case.means.push(0),
    }
}

pub fn write(random: &mut Random) -> WriteResultCase {
    if random.once_in(2) {
        return lawless(random);
    }
    let mut case = sound(random);
    let times = random.choose(&[0, 1, 1, 1, 2, 4]);
    for _ in 0..times {
        spoil(random, &mut case);
    }
    case
}

fn set_cell(file: &mut [u8], cell: u32, number: u32) {
    if let Some(start) = file.len().checked_sub(TRAILER_BYTES) {
        let at = start + 4 * cell as usize;
        file[at..at + 4].copy_from_slice(&number.to_le_bytes());
    }
}

/// A trailer of wild numbers, with starts that fit them in 32 bits, and as many bytes before it as fit them so.
fn wrap(random: &mut Random, file: &mut Vec<u8>) {
    let numbers = [calls::ROWS, calls::DIM, calls::ROWS].map(|range| wild(random, range));
    let [rows, dim, groups] = numbers;
    let blocks = Means::new(random).length(random, &[2, rows])
        + Means::new(random).near(random, u128::from(groups) * (2 + 4 * u128::from(dim)));
    file.resize(blocks + TRAILER_BYTES, 0);
    let starts = [0, rows, rows.wrapping_add(groups)].map(|cells: u32| cells.wrapping_mul(2));
    for (cell, number) in (0..CELLS).zip(starts.into_iter().chain(numbers)) {
        set_cell(file, cell, number);
    }
}

fn damage(random: &mut Random, file: &mut Vec<u8>) {
    let length = file.len() as u32;
    let at = random.below(length.max(1)) as usize;
    match random.below(10) {
        0 | 1 if length > 0 => file[at] ^= 1 << random.below(8),
        2 if length > 0 => file[at] = random.next_u32() as u8,
        3 => file.truncate(at),
        4 => file.splice(at..at, [0; 3]).for_each(drop),
        5 if length > 0 => drop(file.remove(at)),
        6 => wrap(random, file),
        7 => {
            let end = (at + random.below(80) as usize).min(file.len());
            file[at.min(end)..end].fill_with(|| random.next_u32() as u8);
        }
        _ => {
            let (far, any) = (random.choose(&FAR), random.next_u32());
            let near = random.below(60);
            set_cell(
                file,
                random.below(CELLS),
                random.choose(&[near, far, any, length]),
            );
        }
    }
}

/// A file that is sound in one of eight, any bytes in another, else damaged in up to four places.
pub fn read(random: &mut Random) -> ReadResultCase {
    let made = sound(random);
    let means = Means::new(random);
    let ResultNumbers { rows, dim, .. } = made.numbers;
    let mut file = made.run().file;
    match random.below(8) {
        0 => (),
        1 => {
            file.truncate(random.small(0, 100) as usize);
            file.fill_with(|| random.next_u32() as u8);
        }
        _ => {
            for _ in 0..random.small(1, 4) {
                damage(random, &mut file);
            }
        }
    }
    ReadResultCase {
        file,
        order_cells: means.length(random, &[rows]),
        end_cells: means.length(random, &[rows]),
        mean_cells: means.length(random, &[rows, dim]),
        wrong: vec![],
    }
}

pub fn numbers(random: &mut Random) -> ResultNumbersCase {
    read(random).into()
}
