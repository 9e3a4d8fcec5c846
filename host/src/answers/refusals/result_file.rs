//! What keeps a file from being a result file, in its own numbers: a plain look at what the engine refused, and no test of anything else.

use super::first_out_of_range;
use crate::answers::little_endian::{halves, words};
use crate::answers::result_file::{file_bytes, MAX_FILE_BYTES, TRAILER_BYTES};
use crate::reading::table::{MAX_READINGS, MAX_ROWS};

pub fn unsound(file: &[u8]) -> String {
    let length = file.len();
    if length > MAX_FILE_BYTES {
        return format!("it has more than {MAX_FILE_BYTES} bytes, and the longest has no more");
    }
    let Some(trailer_start) = length.checked_sub(TRAILER_BYTES) else {
        return format!("it has {length} bytes; the trailer alone has {TRAILER_BYTES}");
    };
    let trailer = words(&file[trailer_start..]);
    let trailer: Vec<usize> = trailer.into_iter().map(|word| word as usize).collect();
    if let Some(what) = misshapen(length, &trailer) {
        return format!("its trailer is damaged, or something was cut off or added: {what}");
    }
    let order = halves(&file[..trailer[1]]);
    let ends = halves(&file[trailer[1]..trailer[2]]);
    unsound_order(&order)
        .or_else(|| unsound_ends(&ends, order.len()))
        .unwrap_or_else(|| "something in it does not hold together".to_string())
}

/// Ranges first: what follows multiplies.
fn misshapen(length: usize, trailer: &[usize]) -> Option<String> {
    let [rows, dim, groups] = [trailer[3], trailer[4], trailer[5]];
    // No rows have no families, and others have one at least.
    let families = rows.min(1) as i64..=rows as i64;
    let out_of_range = first_out_of_range(&[
        ("the number of rows", rows, 0..=MAX_ROWS as i64),
        ("readings in a row", dim, 1..=MAX_READINGS as i64),
        ("the number of families", groups, families),
    ]);
    if out_of_range.is_some() {
        return out_of_range;
    }
    let starts = [
        ("row numbers", 0),
        ("ends", 2 * rows),
        ("means", 2 * rows + 2 * groups),
    ];
    for ((name, start), told) in starts.into_iter().zip(trailer) {
        if start != *told {
            return Some(format!(
                "the {name} start at byte {told}; {rows} rows in {groups} families have them from byte {start} on"
            ));
        }
    }
    let asked = file_bytes(rows, dim, groups);
    (asked != length).then(|| {
        format!("it has {length} bytes; {rows} rows of {dim} readings in {groups} families take {asked}")
    })
}

/// As many numbers as rows: where none is too large and none stands twice, none is missing.
fn unsound_order(order: &[u16]) -> Option<String> {
    let rows = order.len();
    let mut seen = vec![false; rows];
    order.iter().find_map(|&row| {
        match seen.get_mut(usize::from(row)) {
            None => {
                return Some(format!(
                    "row {row} is listed; it has {rows} rows, from 0 on"
                ))
            }
            Some(true) => return Some(format!("row {row} is listed twice")),
            Some(mark) => *mark = true,
        }
        None
    })
}

/// Running totals of sizes that are all above zero.
fn unsound_ends(ends: &[u16], rows: usize) -> Option<String> {
    let mut before = 0;
    for (family, &end) in ends.iter().enumerate() {
        if end <= before {
            return Some(format!(
                "family {family} goes from {before} to {end} in the row numbers, so that it has no meters"
            ));
        }
        before = end;
    }
    (usize::from(before) != rows)
        .then(|| format!("the last family ends at {before}; it has {rows} rows"))
}

#[cfg(test)]
mod tests {
    use super::*;

    /// Three rows of one reading in two families.
    fn file(order: [u16; 3], ends: [u16; 2], trailer: [u32; 6]) -> Vec<u8> {
        let mut file: Vec<u8> = order
            .into_iter()
            .chain(ends)
            .flat_map(u16::to_le_bytes)
            .collect();
        file.extend([0.5f32, 7.0].into_iter().flat_map(f32::to_le_bytes));
        file.extend(trailer.into_iter().flat_map(u32::to_le_bytes));
        file
    }

    const ORDER: [u16; 3] = [2, 0, 1];
    const ENDS: [u16; 2] = [2, 3];
    const TRAILER: [u32; 6] = [0, 6, 10, 3, 1, 2];

    fn assert_told(file: &[u8], words: &str) {
        let told = unsound(file);
        assert!(told.contains(words), "no `{words}` in: {told}");
    }

    #[test]
    fn a_length_that_no_file_has_is_told() {
        assert_told(&[], "it has 0 bytes; the trailer alone has 24");
        assert_told(&[0; 23], "it has 23 bytes");
        let longer = vec![0; MAX_FILE_BYTES + 1];
        assert_told(&longer, "more than 1064984 bytes");
        assert!(!unsound(&longer[1..]).contains("more than"));
    }

    /// The number at this place of the trailer, changed.
    fn assert_trailer_told(at: usize, number: u32, words: &str) {
        let mut trailer = TRAILER;
        trailer[at] = number;
        let words = format!("cut off or added: {words}");
        assert_told(&file(ORDER, ENDS, trailer), &words);
    }

    #[test]
    fn a_number_of_the_trailer_is_told_with_its_range() {
        let rows = "the number of rows is 4097; it goes from 0 to 4096";
        assert_trailer_told(3, 4_097, rows);
        let readings = "readings in a row is 0; it goes from 1 to 64";
        assert_trailer_told(4, 0, readings);
        assert_trailer_told(4, u32::MAX, "readings in a row is 4294967295; it goes");
        for groups in [0, 4] {
            let families = format!("the number of families is {groups}; it goes from 1 to 3");
            assert_trailer_told(5, groups, &families);
        }
        let none = [0u32, 0, 0, 0, 5, 1].map(u32::to_le_bytes).concat();
        assert_told(&none, "the number of families is 1; it goes from 0 to 0");
    }

    #[test]
    fn a_start_and_a_length_are_told_by_both_figures() {
        for (at, name, byte) in [(0, "row numbers", 0), (1, "ends", 6), (2, "means", 10)] {
            let words = format!(
                "the {name} start at byte 8; 3 rows in 2 families have them from byte {byte} on"
            );
            assert_trailer_told(at, 8, &words);
        }
        let words = "it has 42 bytes; 3 rows of 2 readings in 2 families take 50";
        assert_trailer_told(4, 2, words);
    }

    #[test]
    fn a_row_and_an_end_are_told_by_their_numbers() {
        let told = |order, ends, words: &str| assert_told(&file(order, ends, TRAILER), words);
        told([2, 3, 1], ENDS, "row 3 is listed; it has 3 rows, from 0 on");
        told([2, 0, 2], ENDS, "row 2 is listed twice");
        told(
            ORDER,
            [0, 3],
            "family 0 goes from 0 to 0 in the row numbers",
        );
        told(
            ORDER,
            [3, 3],
            "family 1 goes from 3 to 3 in the row numbers",
        );
        told(ORDER, [1, 2], "the last family ends at 2; it has 3 rows");
        told(ORDER, [1, 4], "the last family ends at 4; it has 3 rows");
        told(ORDER, ENDS, "does not hold together");
    }
}
