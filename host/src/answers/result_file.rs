//! The result file of document 02, through the engine's own writer and reader: this program has no other way to make one or to believe one.

use engine::exported::{read_result, result_numbers, write_result, ResultNumbers};

use super::cells::Cells;
use crate::reading::table::{MAX_READINGS, MAX_ROWS};

pub const TRAILER_BYTES: usize = 24;

/// The longest file: as many families as rows, of the most readings.
pub const MAX_FILE_BYTES: usize = file_bytes(MAX_ROWS, MAX_READINGS, MAX_ROWS);

/// A row number a row, an end and a mean a family, and the trailer.
pub const fn file_bytes(rows: usize, dim: usize, groups: usize) -> usize {
    2 * rows + 2 * groups + 4 * groups * dim + TRAILER_BYTES
}

/// The file of a grouping, or the refusal's number.
pub fn written(cells: &Cells) -> Result<Vec<u8>, u32> {
    let numbers = ResultNumbers {
        rows: cells.rows() as u32,
        dim: cells.dim as u32,
        groups: cells.groups as u32,
    };
    // As they stand in memory: every pattern of NaN is kept.
    let means: Vec<u32> = cells.means.iter().map(|mean| mean.to_bits()).collect();
    let mut file = vec![0; file_bytes(cells.rows(), cells.dim, cells.groups)];
    match write_result(numbers, &cells.order, &cells.ends, &means, &mut file) {
        0 => Ok(file),
        number => Err(number),
    }
}

/// The grouping of a file, or the refusal's number.
pub fn read(file: &[u8]) -> Result<Cells, u32> {
    let told = result_numbers(file);
    if told.number != 0 {
        return Err(told.number);
    }
    let [rows, dim, groups] =
        [told.numbers.rows, told.numbers.dim, told.numbers.groups].map(|number| number as usize);
    let mut cells = Cells {
        groups,
        ..Cells::new(rows, dim)
    };
    let mut means = vec![0; rows * dim];
    let told = read_result(file, &mut cells.order, &mut cells.ends, &mut means);
    if told.number != 0 {
        return Err(told.number);
    }
    cells.means = means.into_iter().map(f32::from_bits).collect();
    Ok(cells)
}

#[cfg(test)]
mod tests {
    use super::*;
    use crate::answers::cells::tests::cells;
    use crate::answers::refusals;

    #[test]
    fn the_longest_file_is_that_of_as_many_families_as_rows() {
        assert_eq!(MAX_FILE_BYTES, 1_064_984);
        assert_eq!(file_bytes(0, 64, 0), 24);
    }

    #[test]
    fn what_is_written_is_read_again() {
        let file = written(&cells()).unwrap();
        assert_eq!(file.len(), 6 + 4 + 16 + 24);
        assert_eq!(read(&file), Ok(cells()));
        assert_eq!(read(&file[1..]), Err(10));
    }

    #[test]
    fn every_pattern_of_nan_is_kept() {
        let patterns = [0x7fc0_0001, 0xffc1_2345, 0x7f80_0001, 0xff80_0000];
        let mut cells = cells();
        cells.means[..4].copy_from_slice(&patterns.map(f32::from_bits));
        let again = read(&written(&cells).unwrap()).unwrap();
        let bits: Vec<u32> = again.means.iter().map(|mean| mean.to_bits()).collect();
        assert_eq!(bits[..4], patterns);
    }

    /// Of a file that differs in one byte: it is written again to the letter, or what is wrong with it is found.
    #[test]
    fn every_changed_byte_is_read_or_explained() {
        let file = written(&cells()).unwrap();
        for at in 0..file.len() {
            for change in 1..=255 {
                let mut changed = file.clone();
                changed[at] ^= change;
                match read(&changed) {
                    Ok(cells) => assert_eq!(written(&cells), Ok(changed)),
                    Err(number) => {
                        let why = refusals::of_result_file(number, &changed);
                        assert!(why.starts_with("no result file: "), "{why}");
                        assert!(!why.contains("hold together"), "{changed:?}");
                    }
                }
            }
        }
    }

    #[test]
    fn cells_that_are_no_grouping_are_refused() {
        let mut twice = cells();
        twice.order[1] = 2;
        assert_eq!(written(&twice), Err(10));
        let mut wide = cells();
        wide.dim = 65;
        assert_eq!(written(&wide), Err(1));
    }
}
