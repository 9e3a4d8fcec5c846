//! The result file through its wrappers: what is written is read, bits and all, and every other file or grouping is refused by number.

use engine::exported::{read_result, result_numbers, write_result, ResultNumbers, ResultTold};

const BLANK: u16 = 65_535;
const STALE: u32 = 0x1234_5678;

/// A grouping in its cells.
#[derive(Clone, Debug, PartialEq)]
struct Grouping {
    numbers: ResultNumbers,
    order: Vec<u16>,
    ends: Vec<u16>,
    means: Vec<u32>,
}

fn numbers(rows: u32, dim: u32, groups: u32) -> ResultNumbers {
    ResultNumbers { rows, dim, groups }
}

/// Three rows of two readings in two groups; a signalling NaN among the means, and others that no sum gives.
fn grouping() -> Grouping {
    Grouping {
        numbers: numbers(3, 2, 2),
        order: vec![2, 0, 1],
        ends: vec![2, 3, BLANK],
        means: vec![0x7f80_0001, 0xffc1_2345, 0x8000_0000, 0x3f00_0000, 0, 0],
    }
}

fn file_bytes(numbers: ResultNumbers) -> usize {
    let [rows, dim, groups] =
        [numbers.rows, numbers.dim, numbers.groups].map(|number| number as usize);
    2 * rows + 2 * groups + 4 * groups * dim + 24
}

/// The refusal's number and what stands in a file of so many bytes, full of stale ones before.
fn write_into(bytes: usize, grouping: &Grouping) -> (u32, Vec<u8>) {
    let mut file = vec![0xa5; bytes];
    let Grouping {
        numbers,
        order,
        ends,
        means,
    } = grouping;
    let number = write_result(*numbers, order, ends, means, &mut file);
    (number, file)
}

fn write(grouping: &Grouping) -> Vec<u8> {
    let (number, file) = write_into(file_bytes(grouping.numbers), grouping);
    assert_eq!(number, 0);
    file
}

fn assert_not_written(number: u32, bytes: usize, grouping: &Grouping) {
    let (told, file) = write_into(bytes, grouping);
    assert_eq!(told, number, "{grouping:?}");
    assert!(file.iter().all(|&byte| byte == 0));
}

/// What is read into slices of these lengths, full of stale cells before.
fn read_into(file: &[u8], cells: [usize; 3]) -> (u32, Grouping) {
    let mut order = vec![STALE as u16; cells[0]];
    let mut ends = vec![STALE as u16; cells[1]];
    let mut means = vec![STALE; cells[2]];
    let told = read_result(file, &mut order, &mut ends, &mut means);
    let grouping = Grouping {
        numbers: told.numbers,
        order,
        ends,
        means,
    };
    (told.number, grouping)
}

fn read(file: &[u8]) -> Grouping {
    let told = result_numbers(file);
    assert_eq!(told.number, 0);
    let [rows, dim] = [told.numbers.rows, told.numbers.dim].map(|number| number as usize);
    let (number, grouping) = read_into(file, [rows, rows, rows * dim]);
    assert_eq!((number, grouping.numbers), (0, told.numbers));
    grouping
}

/// By both readers; all cells are blank.
fn assert_not_read(number: u32, file: &[u8], cells: [usize; 3]) {
    let (told, grouping) = read_into(file, cells);
    assert_eq!(told, number, "{file:?}");
    let blank = Grouping {
        numbers: numbers(0, 0, 0),
        order: vec![BLANK; cells[0]],
        ends: vec![BLANK; cells[1]],
        means: vec![0; cells[2]],
    };
    assert_eq!(grouping, blank);
}

/// As `assert_not_read`, and the numbers alone are refused too.
fn assert_no_file(file: &[u8]) {
    let refused = ResultTold {
        number: 10,
        numbers: numbers(0, 0, 0),
    };
    assert_eq!(result_numbers(file), refused, "{file:?}");
    assert_not_read(10, file, [3, 3, 6]);
}

/// The bytes of the dump in docs/RESULT-FILE.md: the lines of a place, two blanks and then bytes.
fn dumped() -> Vec<u8> {
    let page = concat!(env!("CARGO_MANIFEST_DIR"), "/../../docs/RESULT-FILE.md");
    let page = std::fs::read_to_string(page).expect("the page of the result file is there");
    let lines = page.lines().filter_map(|line| line.strip_prefix("    "));
    let bytes = lines.flat_map(|line| line.split_whitespace().skip(1));
    bytes
        .map(|byte| u8::from_str_radix(byte, 16).expect("a byte is two hexadecimal digits"))
        .collect()
}

#[test]
fn the_page_shows_the_bytes_of_p1() {
    let p1 = Grouping {
        numbers: numbers(4, 1, 2),
        order: vec![2, 3, 0, 1],
        ends: vec![2, 4, BLANK, BLANK],
        means: [10.5f32, 0.5, 0.0, 0.0].map(f32::to_bits).to_vec(),
    };
    assert_eq!(dumped().len(), 44);
    assert_eq!(write(&p1), dumped());
    assert_eq!(read_into(&dumped(), [4, 4, 4]), (0, p1));
}

#[test]
fn blocks_and_trailer_stand_in_order() {
    let mut expected = Vec::new();
    for half in [2u16, 0, 1, 2, 3] {
        expected.extend(half.to_le_bytes());
    }
    let words = [0x7f80_0001u32, 0xffc1_2345, 0x8000_0000, 0x3f00_0000];
    for word in words.into_iter().chain([0, 6, 10, 3, 2, 2]) {
        expected.extend(word.to_le_bytes());
    }
    assert_eq!(write(&grouping()), expected);
}

#[test]
fn what_is_written_is_read_and_what_is_read_is_written() {
    let file = write(&grouping());
    assert_eq!(read(&file), grouping());
    assert_eq!(write(&read(&file)), file);
}

#[test]
fn no_rows_are_24_bytes() {
    for dim in [1, 64] {
        let none = Grouping {
            numbers: numbers(0, dim, 0),
            order: vec![],
            ends: vec![],
            means: vec![],
        };
        let file = write(&none);
        assert_eq!(file.len(), 24);
        assert_eq!(read(&file), none);
    }
}

#[test]
fn the_largest_file_is_written_and_read() {
    let (rows, dim) = (4_096, 64);
    let largest = Grouping {
        numbers: numbers(rows, dim, rows),
        order: (0..rows as u16).map(|row| row ^ 1).collect(),
        ends: (1..=rows as u16).collect(),
        means: (0..rows * dim)
            .map(|at| at.wrapping_mul(0x9e37_79b9))
            .collect(),
    };
    let file = write(&largest);
    assert_eq!(file.len(), 1_064_984);
    assert!(read(&file) == largest);
    assert_no_file(&[&file[..], &[0]].concat());
    let more = Grouping {
        numbers: numbers(rows + 1, dim, rows),
        ..largest
    };
    assert_not_written(1, file.len(), &more);
}

#[test]
fn the_writer_refuses_by_1_then_2_then_10() {
    let mut twice = grouping();
    twice.order[0] = 1;
    assert_not_written(10, 50, &twice);
    // Wrong in two ways, and then in all three.
    assert_not_written(2, 49, &twice);
    for wrong in [
        numbers(4_097, 2, 2),
        numbers(3, 0, 2),
        numbers(3, 65, 2),
        numbers(u32::MAX, u32::MAX, u32::MAX),
    ] {
        twice.numbers = wrong;
        assert_not_written(1, 49, &twice);
    }
}

#[test]
fn each_slice_of_another_length_is_refused_by_2() {
    for bytes in [0, 49, 51] {
        assert_not_written(2, bytes, &grouping());
    }
    let changes: [fn(&mut Grouping); 6] = [
        |grouping| grouping.order.push(3),
        |grouping| grouping.order.truncate(2),
        |grouping| grouping.ends.push(BLANK),
        |grouping| grouping.ends.truncate(2),
        |grouping| grouping.means.push(0),
        |grouping| grouping.means.truncate(4),
    ];
    for change in changes {
        let mut other = grouping();
        change(&mut other);
        assert_not_written(2, 50, &other);
    }
    let file = write(&grouping());
    for cells in [
        [2, 3, 6],
        [4, 3, 6],
        [3, 2, 6],
        [3, 4, 6],
        [3, 3, 4],
        [3, 3, 7],
        [0, 0, 0],
    ] {
        assert_not_read(2, &file, cells);
        assert_not_read(10, &file[1..], cells);
    }
}

/// More groups than rows: the length is looked at first, by the formula with that number.
#[test]
fn groups_above_rows_are_refused_by_10_after_2() {
    let mut many = grouping();
    many.numbers.groups = 4;
    assert_not_written(2, 50, &many);
    assert_not_written(10, 6 + 8 + 32 + 24, &many);
    many.numbers.groups = u32::MAX;
    assert_not_written(2, 50, &many);
}

#[test]
fn cells_that_no_file_gives_are_refused_by_10() {
    let changes: [fn(&mut Grouping); 8] = [
        |grouping| grouping.order[1] = 3,
        |grouping| grouping.order[1] = BLANK,
        |grouping| grouping.ends[0] = 0,
        |grouping| grouping.ends[0] = 3,
        |grouping| grouping.ends[1] = 2,
        |grouping| grouping.ends[1] = 4,
        |grouping| grouping.ends[2] = 3,
        // -0.0 is not blank.
        |grouping| grouping.means[5] = 0x8000_0000,
    ];
    for change in changes {
        let mut other = grouping();
        change(&mut other);
        assert_not_written(10, 50, &other);
    }
    let mut none = grouping();
    none.numbers.groups = 0;
    assert_not_written(10, 30, &none);
}

#[test]
fn every_cut_is_refused_by_10() {
    let file = write(&grouping());
    for length in 0..file.len() {
        assert_no_file(&file[..length]);
        assert_no_file(&file[file.len() - length..]);
    }
    assert_no_file(&[&file[..], &[0]].concat());
    assert_no_file(&file.repeat(2));
}

/// Every byte as every other: what is still read is written again to the very bytes.
#[test]
fn every_changed_byte_is_read_to_the_letter_or_refused() {
    let file = write(&grouping());
    let mut read_again = 0;
    for at in 0..file.len() {
        for change in 1..=255 {
            let mut changed = file.clone();
            changed[at] ^= change;
            match result_numbers(&changed).number {
                0 => {
                    read_again += 1;
                    assert_eq!(write(&read(&changed)), changed);
                }
                _ => assert_no_file(&changed),
            }
        }
    }
    // The bytes of the means are free, and the first end may be 1.
    assert_eq!(read_again, 16 * 255 + 1);
}
