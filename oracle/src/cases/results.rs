//! Cases of the result file's writer.

use super::{outside, size, usual_dim, wrong_length, Case, STALE_BYTE};
use crate::calls::{BLANK_CELL, DIM, ROWS};
use crate::random::Random;
use crate::refusal::Refusal;
use crate::results::{write, ResultCells, ResultNumbers, BLANK_BITS};

/// A file that is longer is not worth making: no call takes it.
const MOST_BYTES: u128 = 1_500_000;

#[derive(Clone, Debug)]
pub struct WriteResultCase {
    pub numbers: ResultNumbers,
    pub order: Vec<u16>,
    pub ends: Vec<u16>,
    pub means: Vec<u32>,
    pub file_bytes: usize,
    /// What was made wrong on purpose.
    pub wrong: Vec<&'static str>,
}

#[derive(Clone, Debug, PartialEq, Eq)]
pub struct WriteOutcome {
    pub answer: Result<(), Refusal>,
    pub file: Vec<u8>,
}

/// Makes one thing wrong; whether it could, since a case may be too small for it.
type Spoil = fn(&mut WriteResultCase, &mut Random) -> bool;

/// What a file can hold too.
pub(super) const WRONG_CONTENT: [(&str, Spoil); 8] = [
    ("a row twice", row_twice),
    ("a row out of range", row_out_of_range),
    ("a first end of 0", first_end_zero),
    ("ends alike", ends_alike),
    ("ends that fall", ends_that_fall),
    ("a last end other than rows", last_end_off),
    ("a group left out", group_left_out),
    ("groups above rows", groups_above_rows),
];

const WRONG_UNUSED: [(&str, Spoil); 3] = [
    ("an unused end that is not blank", unused_end),
    ("an unused mean of -0.0", unused_negative_zero),
    ("an unused mean that is not blank", unused_mean),
];

const WRONG_LENGTHS: [(&str, Spoil); 6] = [
    ("another length of the row order", |case, random| {
        let length = wrong_length(random, case.order.len());
        case.order.resize(length, 0);
        true
    }),
    ("another length of the ends", |case, random| {
        let length = wrong_length(random, case.ends.len());
        case.ends.resize(length, BLANK_CELL);
        true
    }),
    ("another length of the means", |case, random| {
        let length = wrong_length(random, case.means.len());
        case.means.resize(length, BLANK_BITS);
        true
    }),
    ("another length of the file", |case, random| {
        case.file_bytes = wrong_length(random, case.file_bytes);
        true
    }),
    ("groups above rows in a file of before", |case, random| {
        let far = random.choose(&[65_536, 1 << 30, u32::MAX]);
        case.numbers.groups = random.choose(&[case.numbers.rows + 1, far]);
        case.numbers.file_bytes() != case.file_bytes as u128
    }),
    // Twice 2^31 is 0 in 32 bits, so the length asked for is that of before.
    ("groups that wrap", |case, _| {
        case.numbers.groups += 1 << 31;
        true
    }),
];

const WRONG_NUMBERS: [(&str, Spoil); 2] = [
    ("rows out of range", |case, random| {
        case.numbers.rows = outside(random, ROWS);
        true
    }),
    ("dim out of range", |case, random| {
        case.numbers.dim = outside(random, DIM);
        true
    }),
];

fn row_twice(case: &mut WriteResultCase, random: &mut Random) -> bool {
    let rows = case.order.len() as u32;
    if rows < 2 {
        return false;
    }
    let (from, by) = (random.below(rows), random.between(1, rows - 1));
    case.order[((from + by) % rows) as usize] = case.order[from as usize];
    true
}

fn row_out_of_range(case: &mut WriteResultCase, random: &mut Random) -> bool {
    let rows = case.order.len() as u32;
    if rows == 0 {
        return false;
    }
    let any = random.between(rows, 65_535);
    let row = random.choose(&[rows, rows, any, 65_535]);
    case.order[random.below(rows) as usize] = row as u16;
    true
}

fn first_end_zero(case: &mut WriteResultCase, _: &mut Random) -> bool {
    let is_used = case.numbers.groups > 0;
    if is_used {
        case.ends[0] = 0;
    }
    is_used
}

/// The place of an end that has another before it.
fn later_end(case: &WriteResultCase, random: &mut Random) -> Option<usize> {
    let groups = case.numbers.groups;
    (groups > 1).then(|| random.between(1, groups - 1) as usize)
}

fn ends_alike(case: &mut WriteResultCase, random: &mut Random) -> bool {
    let Some(at) = later_end(case, random) else {
        return false;
    };
    // The one that goes is never the last, which has to be rows.
    case.ends[at - 1] = case.ends[at];
    true
}

fn ends_that_fall(case: &mut WriteResultCase, random: &mut Random) -> bool {
    let Some(at) = later_end(case, random) else {
        return false;
    };
    case.ends.swap(at - 1, at);
    true
}

/// Short of rows or past them, and rising still.
fn last_end_off(case: &mut WriteResultCase, random: &mut Random) -> bool {
    let Some(last) = (case.numbers.groups as usize).checked_sub(1) else {
        return false;
    };
    let rows = case.ends[last];
    let before = case.ends[..last].last().copied().unwrap_or(0);
    let far = random.between(u32::from(rows) + 1, 65_535) as u16;
    let near = if before + 1 < rows {
        rows - 1
    } else {
        rows + 1
    };
    case.ends[last] = random.choose(&[near, near, rows + 1, far]);
    true
}

/// The last one: its cells are blank and the file is shorter.
fn group_left_out(case: &mut WriteResultCase, _: &mut Random) -> bool {
    let Some(groups) = case.numbers.groups.checked_sub(1) else {
        return false;
    };
    case.numbers.groups = groups;
    case.ends[groups as usize] = BLANK_CELL;
    case.means[(groups * case.numbers.dim) as usize..].fill(BLANK_BITS);
    case.fit_file();
    true
}

fn groups_above_rows(case: &mut WriteResultCase, random: &mut Random) -> bool {
    let near = case.numbers.rows + random.between(1, 3);
    let groups = random.choose(&[case.numbers.rows + 1, near, 4_097]);
    case.numbers.groups = groups.max(case.numbers.rows + 1);
    case.fit_file();
    true
}

fn unused_end(case: &mut WriteResultCase, random: &mut Random) -> bool {
    let (used, rows) = (case.numbers.groups, case.numbers.rows);
    if used == rows {
        return false;
    }
    let any = random.between(used, rows - 1);
    let at = random.choose(&[used, rows - 1, any]);
    case.ends[at as usize] = random.choose(&[0, rows as u16, rows as u16 + 1, 65_534]);
    true
}

/// Puts the bits into a mean that no group has.
fn set_unused_mean(case: &mut WriteResultCase, random: &mut Random, bits: u32) -> bool {
    let used = case.numbers.groups * case.numbers.dim;
    let Some(last) = (case.means.len() as u32).checked_sub(used + 1) else {
        return false;
    };
    let any = random.between(0, last);
    case.means[(used + random.choose(&[0, last, any])) as usize] = bits;
    true
}

fn unused_negative_zero(case: &mut WriteResultCase, random: &mut Random) -> bool {
    set_unused_mean(case, random, (-0.0f32).to_bits())
}

fn unused_mean(case: &mut WriteResultCase, random: &mut Random) -> bool {
    let any = random.next_u32() | 1;
    let bits = random.choose(&[any, 1, 1 << 8, 1 << 16, 1 << 24, 1 << 30]);
    set_unused_mean(case, random, bits)
}

/// NaN in several ways, infinity, both zeros and the smallest number.
const ODD_BITS: [u32; 8] = [
    0x7fa1_2345,
    u32::MAX,
    0x7fc0_0000,
    0x7f80_0001,
    0x7f80_0000,
    0x8000_0000,
    0,
    1,
];

fn mean_bits(random: &mut Random) -> u32 {
    match random.below(8) {
        0 => random.choose(&ODD_BITS),
        1 => random.next_u32(),
        _ => random.float(-100.0, 100.0).to_bits(),
    }
}

/// Each row once, in any order.
fn any_order(random: &mut Random, rows: u32) -> Vec<u16> {
    let mut order: Vec<u16> = (0..rows as u16).collect();
    for i in (1..order.len()).rev() {
        order.swap(i, random.between(0, i as u32) as usize);
    }
    order
}

/// Ends that part so many rows into so many groups, each way as likely as another.
fn any_ends(random: &mut Random, rows: u32, groups: u32) -> Vec<u16> {
    let mut left = groups;
    let mut ends = vec![];
    for end in 1..=rows {
        // The last group takes the last row.
        let is_end = match left {
            1 => end == rows,
            _ => random.below(rows - end) < left - 1,
        };
        if is_end {
            ends.push(end as u16);
            left -= 1;
        }
    }
    ends
}

impl WriteResultCase {
    /// A grouping that is written, with every length as it should be.
    pub fn of(random: &mut Random, rows: u32, dim: u32, groups: u32) -> Self {
        let order = any_order(random, rows);
        let ends = any_ends(random, rows, groups);
        let means: Vec<u32> = (0..groups * dim).map(|_| mean_bits(random)).collect();
        Self::given(dim, &order, &ends, &means)
    }

    /// These row numbers, one end a group and dim means a group, with the unused cells blank.
    pub fn given(dim: u32, order: &[u16], ends: &[u16], means: &[u32]) -> Self {
        let numbers = ResultNumbers {
            rows: order.len() as u32,
            dim,
            groups: ends.len() as u32,
        };
        let mut case = Self {
            numbers,
            order: order.to_vec(),
            ends: ends.to_vec(),
            means: means.to_vec(),
            file_bytes: 0,
            wrong: vec![],
        };
        case.ends.resize(order.len(), BLANK_CELL);
        case.means.resize(order.len() * dim as usize, BLANK_BITS);
        case.fit_file();
        case
    }

    /// P1's grouping.
    pub fn p1() -> Self {
        let means = [10.5f32, 0.5].map(f32::to_bits);
        Self::given(1, &[2, 3, 0, 1], &[2, 4], &means)
    }

    /// A file of the most bytes.
    pub fn largest() -> Self {
        let random = &mut Random::new(0, 12, 0);
        Self::of(random, ROWS.high, DIM.high, ROWS.high)
    }

    /// Small ones of which every kind of change can be tried.
    pub(super) fn small() -> Vec<Self> {
        let random = &mut Random::new(1, 12, 0);
        let shapes = [(3, 2, 3), (5, 1, 1), (6, 3, 2), (1, 1, 1), (2, 64, 1)];
        let small = shapes.map(|(rows, dim, groups)| Self::of(random, rows, dim, groups));
        let none = [1, 64].map(|dim| Self::given(dim, &[], &[], &[]));
        let all = [Self::p1()].into_iter().chain(small).chain(none);
        all.collect()
    }

    pub(super) fn sound(random: &mut Random) -> Self {
        let rows = size(random, 0, 40, ROWS.high, 200);
        let dim = usual_dim(random);
        let least = rows.min(1);
        let (few, any) = (random.small(least, rows), random.between(least, rows));
        let groups = random.choose(&[least, few, few, any, rows]);
        Self::of(random, rows, dim, groups)
    }

    /// The file is lent as long as the numbers say, where that can be lent.
    fn fit_file(&mut self) {
        let bytes = self.numbers.file_bytes();
        self.file_bytes = if bytes <= MOST_BYTES { bytes } else { 3 } as usize;
    }

    /// Makes one thing wrong, and says so where it could be.
    pub(super) fn spoil(&mut self, random: &mut Random, (name, spoil): (&'static str, Spoil)) {
        if spoil(self, random) {
            self.wrong.push(name);
        }
    }

    fn spoil_content(&mut self, random: &mut Random) {
        let one = match random.below(3) {
            0 => random.choose(&WRONG_UNUSED),
            _ => random.choose(&WRONG_CONTENT),
        };
        self.spoil(random, one);
    }

    fn spoil_call(&mut self, random: &mut Random) {
        let one = match random.below(3) {
            0 => random.choose(&WRONG_NUMBERS),
            _ => random.choose(&WRONG_LENGTHS),
        };
        self.spoil(random, one);
    }

    /// The bytes that would be the file, sound or not: as many ends and means as there are, and in
    /// their place zeros where there are too few.
    pub(super) fn bytes(&self) -> Vec<u8> {
        let ResultNumbers { rows, dim, groups } = self.numbers;
        let (ends, means) = (groups as usize, (groups * dim) as usize);
        let blank = |count: usize| std::iter::repeat_n(0u8, count);
        let mut file: Vec<u8> = self
            .order
            .iter()
            .flat_map(|row| row.to_le_bytes())
            .collect();
        let some = self.ends.iter().take(ends);
        file.extend(some.flat_map(|end| end.to_le_bytes()));
        file.extend(blank(2 * ends.saturating_sub(self.ends.len())));
        let some = self.means.iter().take(means);
        file.extend(some.flat_map(|bits| bits.to_le_bytes()));
        file.extend(blank(4 * means.saturating_sub(self.means.len())));
        let starts = [0, 2 * rows, 2 * rows + 2 * groups];
        let trailer = starts.into_iter().chain([rows, dim, groups]);
        file.extend(trailer.flat_map(u32::to_le_bytes));
        file
    }

    /// Each slice a cell longer and a cell shorter, and the file a byte.
    fn lengths_off_by_one(&self) -> Vec<Self> {
        let mut cases = vec![];
        for more in [true, false] {
            let by_one = |length: usize| if more { length + 1 } else { length - 1 };
            let mut changed = |change: &dyn Fn(&mut Self)| {
                let mut case = self.clone();
                change(&mut case);
                cases.push(case);
            };
            if more || !self.order.is_empty() {
                changed(&|case| case.order.resize(by_one(case.order.len()), 0));
                changed(&|case| case.ends.resize(by_one(case.ends.len()), BLANK_CELL));
                changed(&|case| case.means.resize(by_one(case.means.len()), BLANK_BITS));
            }
            changed(&|case| case.file_bytes = by_one(case.file_bytes));
        }
        cases
    }

    /// So many groups, in a file as long as they ask for and in one of the length of before.
    fn with_groups(&self, groups: u32) -> [Self; 2] {
        let mut before = self.clone();
        before.numbers.groups = groups;
        let mut fitted = before.clone();
        fitted.fit_file();
        [before, fitted]
    }

    /// Everything that is wrong in one way, and all lengths and numbers near those that fit.
    fn neighbours(&self) -> Vec<Self> {
        let random = &mut Random::new(2, 12, 0);
        let mut cases = self.lengths_off_by_one();
        let rows = self.numbers.rows;
        for groups in [
            rows + 1,
            rows + 2,
            4_097,
            65_536,
            1 << 30,
            1 << 31,
            u32::MAX,
        ] {
            cases.extend(self.with_groups(groups));
        }
        let content = WRONG_CONTENT.into_iter().chain(WRONG_UNUSED);
        for one in content.chain(WRONG_LENGTHS).chain(WRONG_NUMBERS) {
            cases.extend((0..4).map(|_| {
                let mut case = self.clone();
                case.spoil(random, one);
                case
            }));
        }
        cases
    }
}

impl Case for WriteResultCase {
    type Outcome = WriteOutcome;
    const NAME: &'static str = "result writing";

    fn generate(seed: u64, index: u64) -> Self {
        let random = &mut Random::new(seed, 12, index);
        let mut case = Self::sound(random);
        let kind = random.below(8);
        if (3..=6).contains(&kind) {
            case.spoil_content(random);
        }
        // Once in four times beside wrong content, to see which refusal goes first.
        if (6..=7).contains(&kind) {
            case.spoil_call(random);
        }
        case
    }

    fn built() -> Vec<Self> {
        let small = Self::small();
        let mut cases: Vec<Self> = small.iter().flat_map(Self::neighbours).collect();
        cases.extend(small);
        let largest = Self::largest();
        let mut twice = largest.clone();
        twice.order[4_095] = twice.order[0];
        let mut last = largest.clone();
        last.ends[4_095] = 4_097;
        cases.extend([largest, twice, last]);
        cases
    }

    fn run(&self) -> WriteOutcome {
        let mut file = vec![STALE_BYTE; self.file_bytes];
        let cells = ResultCells {
            order: &self.order,
            ends: &self.ends,
            means: &self.means,
        };
        let answer = write(&self.numbers, cells, &mut file);
        WriteOutcome { answer, file }
    }

    fn number(outcome: &WriteOutcome) -> u32 {
        outcome.answer.err().map_or(0, Refusal::number)
    }
}
