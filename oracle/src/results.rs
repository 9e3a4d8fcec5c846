//! The result file of request (vi) of document 02: a grouping written, its numbers told, and all of
//! it read back. The source has nothing of it.

use crate::calls::{check_lengths, check_ranges, BLANK_CELL, DIM, ROWS};
use crate::refusal::Refusal;

pub const TRAILER_BYTES: usize = 24;
pub const MAX_FILE_BYTES: usize = 1_064_984;

/// Means are cells of 32 bits here, since a float may lose the bits of a NaN on its way.
pub const BLANK_BITS: u32 = 0;

/// The numbers of a grouping and of its file.
#[derive(Clone, Copy, Debug, PartialEq, Eq)]
pub struct ResultNumbers {
    pub rows: u32,
    pub dim: u32,
    pub groups: u32,
}

impl ResultNumbers {
    /// Those of document 01; it has no range for groups.
    fn check_ranges(&self) -> Result<(), Refusal> {
        check_ranges(&[(self.rows, ROWS), (self.dim, DIM)])
    }

    /// The starts of row numbers, ends and means, and of the trailer: 128 bits hold them for any
    /// numbers, so nothing wraps round into a fit.
    fn starts(&self) -> [u128; 4] {
        let [rows, dim, groups] = [self.rows, self.dim, self.groups].map(u128::from);
        let means = 2 * rows + 2 * groups;
        [0, 2 * rows, means, means + 4 * groups * dim]
    }

    pub fn file_bytes(&self) -> u128 {
        self.starts()[3] + TRAILER_BYTES as u128
    }

    /// The trailer of a file whose starts fit its cells.
    fn trailer(&self) -> [u32; 6] {
        let [order, ends, means, _] = self.starts().map(|at| at as u32);
        [order, ends, means, self.rows, self.dim, self.groups]
    }

    fn used_means(&self) -> usize {
        self.groups as usize * self.dim as usize
    }
}

/// The cells that are written.
#[derive(Clone, Copy, Debug)]
pub struct ResultCells<'a> {
    pub order: &'a [u16],
    pub ends: &'a [u16],
    pub means: &'a [u32],
}

impl ResultCells<'_> {
    /// 10 for a grouping that `read` never gives; its numbers and lengths are right.
    fn check_content(&self, numbers: &ResultNumbers) -> Result<(), Refusal> {
        if numbers.groups > numbers.rows {
            return Err(Refusal::ResultFile);
        }
        let (ends, unused_ends) = self.ends.split_at(numbers.groups as usize);
        let unused_means = &self.means[numbers.used_means()..];
        let fits = each_once(self.order.iter().copied(), numbers.rows)
            && rise(ends.iter().copied(), numbers.rows)
            && unused_ends.iter().all(|&end| end == BLANK_CELL)
            && unused_means.iter().all(|&bits| bits == BLANK_BITS);
        fits.then_some(()).ok_or(Refusal::ResultFile)
    }
}

/// Whether each row below the number is there and none twice, of as many as that.
fn each_once(mut order: impl Iterator<Item = u16>, rows: u32) -> bool {
    let mut seen = [false; ROWS.high as usize];
    let seen = &mut seen[..rows as usize];
    order.all(|row| match seen.get_mut(usize::from(row)) {
        Some(seen) => !std::mem::replace(seen, true),
        None => false,
    })
}

/// Whether the ends rise, each above the one before, from above zero to the number of rows. Without
/// any there are no rows.
fn rise(ends: impl Iterator<Item = u16>, rows: u32) -> bool {
    let mut last = 0;
    for end in ends {
        if end <= last {
            return false;
        }
        last = end;
    }
    u32::from(last) == rows
}

// ---- the writer

/// Puts cells into a block of just their bytes.
fn put<const BYTES: usize>(block: &mut [u8], cells: impl Iterator<Item = [u8; BYTES]>) {
    for (bytes, cell) in block.chunks_exact_mut(BYTES).zip(cells) {
        bytes.copy_from_slice(&cell);
    }
}

/// The file is all zero after any refusal, whatever its length.
pub fn write(numbers: &ResultNumbers, cells: ResultCells, file: &mut [u8]) -> Result<(), Refusal> {
    file.fill(0);
    numbers.check_ranges()?;
    check_lengths(&[
        (cells.order.len(), numbers.rows),
        (cells.ends.len(), numbers.rows),
        (cells.means.len(), numbers.rows * numbers.dim),
    ])?;
    if file.len() as u128 != numbers.file_bytes() {
        return Err(Refusal::WrongLength);
    }
    cells.check_content(numbers)?;

    let [_, ends_at, means_at, trailer_at] = numbers.starts().map(|at| at as usize);
    let (blocks, trailer) = file.split_at_mut(trailer_at);
    let (blocks, means) = blocks.split_at_mut(means_at);
    let (order, ends) = blocks.split_at_mut(ends_at);
    put(order, cells.order.iter().map(|row| row.to_le_bytes()));
    put(ends, cells.ends.iter().map(|end| end.to_le_bytes()));
    put(means, cells.means.iter().map(|bits| bits.to_le_bytes()));
    put(trailer, numbers.trailer().iter().map(|n| n.to_le_bytes()));
    Ok(())
}

// ---- the reader

/// A file whose numbers are in range and whose blocks stand where the numbers say.
struct Shaped<'a> {
    numbers: ResultNumbers,
    order: &'a [u8],
    ends: &'a [u8],
    means: &'a [u8],
}

fn halves(block: &[u8]) -> impl Iterator<Item = u16> + '_ {
    block
        .chunks_exact(2)
        .map(|half| u16::from_le_bytes([half[0], half[1]]))
}

fn words(block: &[u8]) -> impl Iterator<Item = u32> + '_ {
    block
        .chunks_exact(4)
        .map(|word| u32::from_le_bytes([word[0], word[1], word[2], word[3]]))
}

/// 10 for a file that is too short for a trailer, whose numbers are out of range, or whose starts or
/// length are not those of its numbers.
fn shaped(file: &[u8]) -> Result<Shaped<'_>, Refusal> {
    let trailer_start = file.len().checked_sub(TRAILER_BYTES);
    let (blocks, trailer) = file.split_at(trailer_start.ok_or(Refusal::ResultFile)?);
    let mut cells = [0; 6];
    for (cell, word) in cells.iter_mut().zip(words(trailer)) {
        *cell = word;
    }
    let [_, _, _, rows, dim, groups] = cells;
    let numbers = ResultNumbers { rows, dim, groups };
    let in_range = numbers.check_ranges().is_ok() && groups <= rows;
    // Numbers out of range may have starts that no cell holds.
    if !in_range || cells != numbers.trailer() || file.len() as u128 != numbers.file_bytes() {
        return Err(Refusal::ResultFile);
    }
    let (blocks, means) = blocks.split_at(cells[2] as usize);
    let (order, ends) = blocks.split_at(cells[1] as usize);
    Ok(Shaped {
        numbers,
        order,
        ends,
        means,
    })
}

/// All tests of 10.
fn sound(file: &[u8]) -> Result<Shaped<'_>, Refusal> {
    let found = shaped(file)?;
    let rows = found.numbers.rows;
    let fits = each_once(halves(found.order), rows) && rise(halves(found.ends), rows);
    fits.then_some(found).ok_or(Refusal::ResultFile)
}

/// The numbers of a file that `read` accepts, so that a caller knows what to lend.
pub fn numbers(file: &[u8]) -> Result<ResultNumbers, Refusal> {
    sound(file).map(|found| found.numbers)
}

/// The result slices lent to the reader.
pub struct ResultLent<'a> {
    pub order: &'a mut [u16],
    pub ends: &'a mut [u16],
    pub means: &'a mut [u32],
}

impl ResultLent<'_> {
    fn blank(&mut self) {
        self.order.fill(BLANK_CELL);
        self.ends.fill(BLANK_CELL);
        self.means.fill(BLANK_BITS);
    }

    fn check_lengths(&self, numbers: &ResultNumbers) -> Result<(), Refusal> {
        check_lengths(&[
            (self.order.len(), numbers.rows),
            (self.ends.len(), numbers.rows),
            (self.means.len(), numbers.rows * numbers.dim),
        ])
    }

    /// What the file has none for keeps its blanks.
    fn write(&mut self, found: &Shaped) {
        for (cell, row) in self.order.iter_mut().zip(halves(found.order)) {
            *cell = row;
        }
        for (cell, end) in self.ends.iter_mut().zip(halves(found.ends)) {
            *cell = end;
        }
        for (cell, bits) in self.means.iter_mut().zip(words(found.means)) {
            *cell = bits;
        }
    }
}

/// 10 comes before lengths are looked at.
pub fn read(file: &[u8], mut lent: ResultLent) -> Result<ResultNumbers, Refusal> {
    lent.blank();
    let found = sound(file)?;
    lent.check_lengths(&found.numbers)?;
    lent.write(&found);
    Ok(found.numbers)
}
