//! Request (vi) of document 02: the result file's bytes, what comes back, and each refusal in its order.

use oracle::cases::{Case, ReadOutcome, ReadResultCase, WriteOutcome, WriteResultCase};
use oracle::refusal::Refusal;
use oracle::results::{numbers, ResultNumbers, MAX_FILE_BYTES};

/// P1's file by hand: row numbers, ends, means, three starts, rows, dim and groups.
#[rustfmt::skip]
const P1: [u8; 44] = [
    2, 0, 3, 0, 0, 0, 1, 0,
    2, 0, 4, 0,
    0, 0, 0x28, 0x41, 0, 0, 0, 0x3f,
    0, 0, 0, 0, 8, 0, 0, 0, 12, 0, 0, 0,
    4, 0, 0, 0, 1, 0, 0, 0, 2, 0, 0, 0,
];

fn written(case: &WriteResultCase) -> Vec<u8> {
    let WriteOutcome { answer, file } = case.run();
    assert_eq!(answer, Ok(()), "{case:?}");
    file
}

/// The number of a refusal, after which no byte is left.
fn write_number(case: &WriteResultCase) -> u32 {
    let outcome = case.run();
    let is_zero = outcome.file.iter().all(|&byte| byte == 0);
    assert!(outcome.answer.is_ok() || is_zero, "{case:?}");
    assert_eq!(outcome.file.len(), case.file_bytes);
    WriteResultCase::number(&outcome)
}

/// The number of a refusal, after which all cells are blank.
fn read_number(case: &ReadResultCase) -> u32 {
    let ReadOutcome {
        answer,
        order,
        ends,
        means,
    } = case.run();
    let is_blank = order.iter().chain(&ends).all(|&cell| cell == 65_535);
    let is_zero = means.iter().all(|&bits| bits == 0);
    assert!(answer.is_ok() || is_blank && is_zero, "{case:?}");
    answer.err().map_or(0, Refusal::number)
}

fn p1_numbers() -> ResultNumbers {
    WriteResultCase::p1().numbers
}

fn read_of(file: &[u8]) -> ReadResultCase {
    ReadResultCase::fitting(file.to_vec(), &p1_numbers())
}

/// The number that P1's file is refused by when a part of it is changed; its numbers alone have the same.
fn number_with(at: usize, bytes: &[u8]) -> u32 {
    let mut file = P1;
    file[at..at + bytes.len()].copy_from_slice(bytes);
    let number = read_number(&read_of(&file));
    assert_eq!(numbers(&file).err().map_or(0, Refusal::number), number);
    number
}

fn changed(change: impl Fn(&mut WriteResultCase)) -> u32 {
    let mut case = WriteResultCase::p1();
    change(&mut case);
    write_number(&case)
}

#[test]
fn p1_written_and_read() {
    let case = WriteResultCase::p1();
    assert_eq!(case.ends, [2, 4, 65_535, 65_535]);
    assert_eq!(case.means, [10.5f32, 0.5, 0.0, 0.0].map(f32::to_bits));
    assert_eq!(written(&case), P1);
    assert_eq!(numbers(&P1), Ok(case.numbers));
    let outcome = read_of(&P1).run();
    assert_eq!(outcome.answer, Ok(case.numbers));
    assert_eq!(outcome.order, [2, 3, 0, 1]);
    assert_eq!((outcome.ends, outcome.means), (case.ends, case.means));
}

#[test]
fn no_rows_are_a_trailer() {
    for dim in [1u8, 2, 64] {
        let case = WriteResultCase::given(dim.into(), &[], &[], &[]);
        let mut file = [0; 24];
        file[16] = dim;
        assert_eq!(written(&case), file);
        assert_eq!(numbers(&file), Ok(case.numbers));
        let read = ReadResultCase::fitting(file.to_vec(), &case.numbers);
        assert_eq!(read.run().answer, Ok(case.numbers));
        // A group, or a dim out of range, in as many bytes.
        for (at, byte) in [(20, 1), (16, 0), (16, 65), (12, 1)] {
            let mut file = file;
            file[at] = byte;
            assert_eq!(numbers(&file), Err(Refusal::ResultFile));
        }
    }
}

#[test]
fn the_largest_file() {
    let case = WriteResultCase::largest();
    let file = written(&case);
    assert_eq!(file.len(), MAX_FILE_BYTES);
    assert_eq!(case.numbers.file_bytes(), 1_064_984);
    let outcome = ReadResultCase::fitting(file, &case.numbers).run();
    assert_eq!(outcome.answer, Ok(case.numbers));
    assert_eq!((outcome.order, outcome.ends), (case.order, case.ends));
    assert_eq!(outcome.means, case.means);
}

#[test]
fn every_bit_of_a_mean_travels() {
    let bits = [0x7fa1_2345, 0xffff_ffff, 0x8000_0000, 1, 0, 0x7f80_0000];
    let case = WriteResultCase::given(2, &[1, 0, 2], &[1, 2, 3], &bits);
    let outcome = ReadResultCase::fitting(written(&case), &case.numbers).run();
    assert_eq!(outcome.means, bits);
}

#[test]
fn one_for_rows_and_dim_alone() {
    for rows in [4_097, 65_536 + 4, 1 << 31, u32::MAX] {
        assert_eq!(changed(|case| case.numbers.rows = rows), 1);
    }
    for dim in [0, 65, 65_537, u32::MAX] {
        assert_eq!(changed(|case| case.numbers.dim = dim), 1);
    }
    // Ahead of 2 and of 10.
    let all_wrong = |case: &mut WriteResultCase| {
        case.numbers.dim = 0;
        case.numbers.groups = u32::MAX;
        case.order = vec![9];
        case.file_bytes = 7;
    };
    assert_eq!(changed(all_wrong), 1);
}

#[test]
fn two_for_each_length() {
    let lengths: [fn(&mut WriteResultCase) -> &mut Vec<u16>; 2] =
        [|case| &mut case.order, |case| &mut case.ends];
    for cells in lengths {
        for length in [0, 3, 5] {
            assert_eq!(changed(|case| cells(case).resize(length, 65_535)), 2);
        }
    }
    for length in [0, 3, 5] {
        assert_eq!(changed(|case| case.means.resize(length, 0)), 2);
    }
    for bytes in [0, 24, 43, 45] {
        assert_eq!(changed(|case| case.file_bytes = bytes), 2);
    }
    // Ahead of 10.
    let twice = |case: &mut WriteResultCase| {
        case.order[0] = 3;
        case.file_bytes = 43;
    };
    assert_eq!(changed(twice), 2);
}

#[test]
fn groups_above_rows_by_the_length_of_the_file() {
    for groups in [5, 6, 4_097] {
        let with = |bytes: usize| {
            changed(|case| {
                case.numbers.groups = groups;
                case.file_bytes = bytes;
            })
        };
        let exact = 8 + 6 * groups as usize + 24;
        assert_eq!([with(44), with(exact - 1), with(exact + 1)], [2; 3]);
        assert_eq!(with(exact), 10);
    }
    // 26 and 32 bytes are what 32 bits keep of the length.
    for (groups, bytes) in [(u32::MAX, 44), (u32::MAX, 26), (1 << 31, 32)] {
        let far = |case: &mut WriteResultCase| {
            case.numbers.groups = groups;
            case.file_bytes = bytes;
        };
        assert_eq!(changed(far), 2);
    }
}

#[test]
fn ten_for_what_is_never_read() {
    assert_eq!(changed(|case| case.order[3] = 2), 10);
    assert_eq!(changed(|case| case.order[3] = 4), 10);
    assert_eq!(changed(|case| case.order[0] = 65_535), 10);
    assert_eq!(changed(|case| case.ends[0] = 0), 10);
    assert_eq!(changed(|case| case.ends[0] = 4), 10);
    assert_eq!(changed(|case| case.ends[0] = 5), 10);
    assert_eq!(changed(|case| case.ends[1] = 3), 10);
    assert_eq!(changed(|case| case.ends[1] = 5), 10);
    // Other sizes are as good.
    assert_eq!(changed(|case| case.ends[0] = 1), 0);
    assert_eq!(changed(|case| case.ends[0] = 3), 0);
    for end in [0, 4, 5, 65_534] {
        assert_eq!(changed(|case| case.ends[2] = end), 10);
        assert_eq!(changed(|case| case.ends[3] = end), 10);
    }
    for bits in [0x8000_0000, 1, 0x7fc0_0000] {
        assert_eq!(changed(|case| case.means[2] = bits), 10);
        assert_eq!(changed(|case| case.means[3] = bits), 10);
        assert_eq!(changed(|case| case.means[1] = bits), 0);
    }
    // No groups of four rows.
    let none = |case: &mut WriteResultCase| {
        case.numbers.groups = 0;
        case.ends.fill(65_535);
        case.means.fill(0);
        case.file_bytes = 32;
    };
    assert_eq!(changed(none), 10);
}

#[test]
fn ten_for_each_thing_in_a_file() {
    assert_eq!(number_with(0, &[2, 0]), 0);
    // A row twice, a row out of range by either byte.
    assert_eq!(number_with(0, &[3]), 10);
    assert_eq!(number_with(0, &[4]), 10);
    assert_eq!(number_with(1, &[1]), 10);
    // A size of 0, ends that fall, a last one that is not rows.
    assert_eq!(number_with(8, &[0]), 10);
    assert_eq!(number_with(8, &[4]), 10);
    assert_eq!(number_with(8, &[5]), 10);
    assert_eq!(number_with(10, &[3]), 10);
    assert_eq!(number_with(10, &[5]), 10);
    // Any mean.
    assert_eq!(number_with(12, &[0x45, 0x23, 0xa1, 0x7f]), 0);
    assert_eq!(number_with(16, &[0xff; 4]), 0);
    // Starts and numbers, to any other value.
    for at in (20..44).step_by(4) {
        let was = P1[at];
        for cell in [u32::from(was) + 1, (1 << 31) + u32::from(was), u32::MAX] {
            assert_eq!(number_with(at, &cell.to_le_bytes()), 10);
        }
    }
}

#[test]
fn ten_for_every_other_length_of_a_file() {
    for length in 0..P1.len() {
        assert_eq!(read_number(&read_of(&P1[..length])), 10);
    }
    for byte in [0, 255] {
        assert_eq!(read_number(&read_of(&[&P1[..], &[byte]].concat())), 10);
        assert_eq!(read_number(&read_of(&[&[byte], &P1[..]].concat())), 10);
    }
    assert_eq!(numbers(&[]), Err(Refusal::ResultFile));
}

#[test]
fn two_for_a_lent_slice_after_ten() {
    let lengths: [fn(&mut ReadResultCase) -> &mut usize; 3] = [
        |case| &mut case.order_cells,
        |case| &mut case.end_cells,
        |case| &mut case.mean_cells,
    ];
    for cells in lengths {
        for length in [0, 3, 5] {
            let mut case = read_of(&P1);
            *cells(&mut case) = length;
            assert_eq!(read_number(&case), 2);
            // Wrong content is as much ahead of it as a wrong shape.
            case.file[0] = 3;
            assert_eq!(read_number(&case), 10);
            case.file[0] = 2;
            case.file[10] = 5;
            assert_eq!(read_number(&case), 10);
            case.file.pop();
            assert_eq!(read_number(&case), 10);
        }
    }
}
