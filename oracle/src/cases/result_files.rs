//! Cases of the result file's readers: of all of it, and of its numbers alone.

use super::results::WRONG_CONTENT;
use super::{outside, wrong_length, Case, WriteResultCase, STALE_BITS, STALE_CELL};
use crate::calls::{Range, DIM, ROWS};
use crate::random::Random;
use crate::refusal::Refusal;
use crate::results::{numbers, read, ResultLent, ResultNumbers, TRAILER_BYTES};

#[derive(Clone, Debug)]
pub struct ReadResultCase {
    pub file: Vec<u8>,
    pub order_cells: usize,
    pub end_cells: usize,
    pub mean_cells: usize,
    /// What was made wrong on purpose.
    pub wrong: Vec<&'static str>,
}

#[derive(Clone, Debug, PartialEq, Eq)]
pub struct ReadOutcome {
    pub answer: Result<ResultNumbers, Refusal>,
    pub order: Vec<u16>,
    pub ends: Vec<u16>,
    pub means: Vec<u32>,
}

/// Makes one thing of a file another, which may leave it sound: a mean has any bits.
type Damage = fn(&mut Vec<u8>, &mut Random);

const DAMAGES: [(&str, Damage); 10] = [
    ("a byte changed", |file, random| {
        let at = random.below(file.len() as u32) as usize;
        file[at] ^= random.between(1, 255) as u8;
    }),
    ("a bit changed", |file, random| {
        let at = random.below(file.len() as u32) as usize;
        file[at] ^= 1 << random.below(8);
    }),
    ("a byte short", |file, random| {
        let last = file.len() - 1;
        let any = random.below(file.len() as u32) as usize;
        file.remove(random.choose(&[last, last, 0, any]));
    }),
    ("a byte long", |file, random| {
        let end = file.len();
        let any = random.below(file.len() as u32) as usize;
        file.insert(random.choose(&[end, end, 0, any, end - TRAILER_BYTES]), 0);
    }),
    ("a part of a file", |file, random| {
        file.truncate(random.below(file.len() as u32) as usize);
    }),
    ("another start", |file, random| {
        let cell = random.below(3);
        let was = cell_of(file, cell);
        let near = random.choose(&[1, 2, u32::MAX, u32::MAX - 1, 1 << 31, 1 << 16]);
        let changed = random.choose(&[was.wrapping_add(near), !was, was ^ 4]);
        set_cell(file, cell, changed);
    }),
    ("another number", |file, random| {
        let (cell, range) = random.choose(&NUMBER_CELLS);
        let was = cell_of(file, cell);
        let out = outside(random, range);
        let near = random.choose(&[1, u32::MAX]);
        set_cell(
            file,
            cell,
            random.choose(&[was.wrapping_add(near), out, u32::MAX - was]),
        );
    }),
    ("a number that wraps", |file, random| {
        // Starts and length are the same in 32 bits.
        let (cell, by) = random.choose(&[(3, 1 << 31), (4, 1 << 30), (5, 1 << 31)]);
        let wrapping = cell_of(file, cell) + by;
        set_cell(file, cell, wrapping);
    }),
    ("other numbers of the same length", |file, _| {
        let [rows, dim, groups] = [3, 4, 5].map(|cell| cell_of(file, cell));
        set_numbers(file, rows + 2 * groups, dim - 1, groups);
    }),
    ("any bytes", |file, random| {
        file.truncate(random.small(0, 100) as usize);
        file.fill_with(|| random.next_u32() as u8);
    }),
];

/// Those of the shortest file.
const NONE: ResultNumbers = ResultNumbers {
    rows: 0,
    dim: 1,
    groups: 0,
};

/// Where the numbers stand in the trailer; for groups any range will do.
const NUMBER_CELLS: [(u32, Range); 3] = [(3, ROWS), (4, DIM), (5, ROWS)];

fn cell_at(file: &[u8], cell: u32) -> usize {
    file.len() - TRAILER_BYTES + 4 * cell as usize
}

fn cell_of(file: &[u8], cell: u32) -> u32 {
    let at = cell_at(file, cell);
    u32::from_le_bytes([file[at], file[at + 1], file[at + 2], file[at + 3]])
}

fn set_cell(file: &mut [u8], cell: u32, number: u32) {
    let at = cell_at(file, cell);
    file[at..at + 4].copy_from_slice(&number.to_le_bytes());
}

/// The trailer of these numbers, with starts as 32 bits keep them.
fn set_numbers(file: &mut [u8], rows: u32, dim: u32, groups: u32) {
    let starts = [0, rows, rows.wrapping_add(groups)].map(|cells| cells.wrapping_mul(2));
    for (cell, number) in (0..).zip(starts.into_iter().chain([rows, dim, groups])) {
        set_cell(file, cell, number);
    }
}

/// A file in which all is as it should be but that its rows or its dim are out of range.
fn out_of_range(random: &mut Random) -> (&'static str, WriteResultCase) {
    match random.once_in(2) {
        true => {
            let rows = ROWS.high + random.between(1, 3);
            ("rows out of range", WriteResultCase::of(random, rows, 1, 2))
        }
        false => {
            let (rows, dim) = (random.between(1, 4), random.choose(&[0, 65, 66, 1_000]));
            (
                "dim out of range",
                WriteResultCase::of(random, rows, dim, 1),
            )
        }
    }
}

/// Some other bytes: next to it, at the ends of the range, or with some of its bits turned.
fn other_bytes(byte: u8) -> Vec<u8> {
    let near = [byte.wrapping_add(1), byte.wrapping_sub(1)];
    let mut others = [byte ^ 1, byte ^ 0x80, !byte, 0, 1, 255].to_vec();
    others.extend(near);
    others.sort_unstable();
    others.dedup();
    others.retain(|&other| other != byte);
    others
}

impl ReadResultCase {
    /// With slices that fit these numbers.
    pub fn fitting(file: Vec<u8>, numbers: &ResultNumbers) -> Self {
        let rows = numbers.rows as usize;
        Self {
            file,
            order_cells: rows,
            end_cells: rows,
            mean_cells: rows * numbers.dim as usize,
            wrong: vec![],
        }
    }

    /// The file of a case of the writer, sound or not.
    fn of(case: &WriteResultCase) -> Self {
        Self {
            wrong: case.wrong.clone(),
            ..Self::fitting(case.bytes(), &case.numbers)
        }
    }

    fn sound(random: &mut Random) -> Self {
        Self::of(&WriteResultCase::sound(random))
    }

    fn damaged(random: &mut Random) -> Self {
        let mut case = Self::sound(random);
        let (name, damage) = random.choose(&DAMAGES);
        damage(&mut case.file, random);
        case.wrong.push(name);
        case
    }

    fn wrong_content(random: &mut Random) -> Self {
        let mut case = WriteResultCase::sound(random);
        let one = random.choose(&WRONG_CONTENT);
        case.spoil(random, one);
        Self::of(&case)
    }

    fn out_of_range(random: &mut Random) -> Self {
        let (name, case) = out_of_range(random);
        let mut case = Self::of(&case);
        case.wrong.push(name);
        case
    }

    fn spoil_a_length(&mut self, random: &mut Random) {
        let (name, cells) = match random.below(3) {
            0 => ("another length of the row order", &mut self.order_cells),
            1 => ("another length of the ends", &mut self.end_cells),
            _ => ("another length of the means", &mut self.mean_cells),
        };
        *cells = wrong_length(random, *cells);
        self.wrong.push(name);
    }

    /// Any file, with slices that fit what it was made of.
    fn any(random: &mut Random) -> Self {
        match random.below(16) {
            0..=4 => Self::sound(random),
            5..=10 => Self::damaged(random),
            11..=14 => Self::wrong_content(random),
            _ => Self::out_of_range(random),
        }
    }

    /// Every byte once as each of these others.
    fn with_other_bytes(&self, others: fn(u8) -> Vec<u8>) -> Vec<Self> {
        let mut cases = vec![];
        for (at, &byte) in self.file.iter().enumerate() {
            for other in others(byte) {
                let mut case = self.clone();
                case.file[at] = other;
                cases.push(case);
            }
        }
        cases
    }

    /// The file a byte longer or shorter at either end, and each slice a cell.
    fn lengths_off_by_one(&self) -> Vec<Self> {
        let mut cases = vec![];
        let mut changed = |change: &dyn Fn(&mut Self)| {
            let mut case = self.clone();
            change(&mut case);
            cases.push(case);
        };
        changed(&|case| case.file.push(0));
        changed(&|case| case.file.insert(0, 0));
        changed(&|case| case.file.truncate(case.file.len() - 1));
        changed(&|case| case.file = case.file.split_off(1));
        changed(&|case| case.order_cells += 1);
        changed(&|case| case.end_cells += 1);
        changed(&|case| case.mean_cells += 1);
        if self.order_cells > 0 {
            changed(&|case| case.order_cells -= 1);
            changed(&|case| case.end_cells -= 1);
            changed(&|case| case.mean_cells -= 1);
        }
        cases
    }

    /// Each thing wrong that a file can hold, and each damage.
    fn each_wrong(case: &WriteResultCase) -> Vec<Self> {
        let random = &mut Random::new(3, 13, 0);
        let mut cases = vec![];
        for one in WRONG_CONTENT {
            let mut case = case.clone();
            case.spoil(random, one);
            cases.push(Self::of(&case));
        }
        for (_, damage) in DAMAGES {
            let mut case = Self::of(case);
            damage(&mut case.file, random);
            cases.push(case);
        }
        cases
    }

    /// Numbers that are out of range, or fit a file of 24 bytes only if products or sums wrap.
    fn bare(rows: u32, dim: u32, groups: u32) -> Self {
        let mut file = vec![0; TRAILER_BYTES];
        set_numbers(&mut file, rows, dim, groups);
        Self::fitting(file, &NONE)
    }

    /// The longest file, and some that differ from it in one place or in their length.
    fn largest() -> Vec<Self> {
        let largest = Self::of(&WriteResultCase::largest());
        let mut cases = largest.lengths_off_by_one();
        let end = largest.file.len();
        for at in [0, 8_191, 8_192, 16_382, 16_384, end - 25, end - 1] {
            let mut case = largest.clone();
            case.file[at] ^= 1;
            cases.push(case);
        }
        cases.push(largest);
        cases
    }
}

impl Case for ReadResultCase {
    type Outcome = ReadOutcome;
    const NAME: &'static str = "result reading";

    fn generate(seed: u64, index: u64) -> Self {
        let random = &mut Random::new(seed, 13, index);
        let mut case = Self::any(random);
        // Beside another thing wrong too, which goes first.
        if random.once_in(4) {
            case.spoil_a_length(random);
        }
        case
    }

    fn built() -> Vec<Self> {
        let p1 = Self::of(&WriteResultCase::p1());
        let mut cases = p1.with_other_bytes(|byte| (0..=255).filter(|&b| b != byte).collect());
        for small in &WriteResultCase::small() {
            let case = Self::of(small);
            cases.extend(case.with_other_bytes(other_bytes));
            cases.extend(case.lengths_off_by_one());
            cases.extend(Self::each_wrong(small));
            cases.push(case);
        }
        let turn = 1 << 31;
        for (rows, groups) in [(turn, 0), (0, turn), (turn, turn), (0, 1), (0, u32::MAX)] {
            cases.extend([0, 1, 64, 65, u32::MAX].map(|dim| Self::bare(rows, dim, groups)));
        }
        for length in 0..2 * TRAILER_BYTES {
            cases.push(Self::fitting(vec![0; length], &NONE));
        }
        // Rows and dim just above their ranges, in files that are right otherwise.
        let random = &mut Random::new(4, 13, 0);
        cases.extend((0..16).map(|_| Self::out_of_range(random)));
        cases.extend(Self::largest());
        cases
    }

    fn run(&self) -> ReadOutcome {
        let mut order = vec![STALE_CELL; self.order_cells];
        let mut ends = vec![STALE_CELL; self.end_cells];
        let mut means = vec![STALE_BITS; self.mean_cells];
        let lent = ResultLent {
            order: &mut order,
            ends: &mut ends,
            means: &mut means,
        };
        let answer = read(&self.file, lent);
        ReadOutcome {
            answer,
            order,
            ends,
            means,
        }
    }

    fn number(outcome: &ReadOutcome) -> u32 {
        outcome.answer.err().map_or(0, Refusal::number)
    }
}

/// The same files, of which the numbers alone are asked.
#[derive(Clone, Debug)]
pub struct ResultNumbersCase {
    pub file: Vec<u8>,
    pub wrong: Vec<&'static str>,
}

impl From<ReadResultCase> for ResultNumbersCase {
    fn from(case: ReadResultCase) -> Self {
        Self {
            file: case.file,
            wrong: case.wrong,
        }
    }
}

impl Case for ResultNumbersCase {
    type Outcome = Result<ResultNumbers, Refusal>;
    const NAME: &'static str = "result numbers";

    fn generate(seed: u64, index: u64) -> Self {
        ReadResultCase::any(&mut Random::new(seed, 15, index)).into()
    }

    fn built() -> Vec<Self> {
        let built = ReadResultCase::built().into_iter();
        built.map(Self::from).collect()
    }

    fn run(&self) -> Self::Outcome {
        numbers(&self.file)
    }

    fn number(outcome: &Self::Outcome) -> u32 {
        outcome.err().map_or(0, Refusal::number)
    }
}
