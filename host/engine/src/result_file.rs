//! The result file's exported functions, each behind a safe wrapper, as in `exported`. Means go as the bits of their floats.

use crate::stack;

extern "C" {
    fn families_write_result(
        rows: u32,
        dim: u32,
        groups: u32,
        order: *const u16,
        order_cells: usize,
        ends: *const u16,
        end_cells: usize,
        means: *const u32,
        mean_cells: usize,
        file: *mut u8,
        file_bytes: usize,
    ) -> u32;

    fn families_result_numbers(
        file: *const u8,
        file_bytes: usize,
        rows: *mut u32,
        dim: *mut u32,
        groups: *mut u32,
    ) -> u32;

    fn families_read_result(
        file: *const u8,
        file_bytes: usize,
        order: *mut u16,
        order_cells: usize,
        ends: *mut u16,
        end_cells: usize,
        means: *mut u32,
        mean_cells: usize,
        rows: *mut u32,
        dim: *mut u32,
        groups: *mut u32,
    ) -> u32;
}

/// The numbers of a grouping that is written.
#[derive(Clone, Copy, Debug, PartialEq, Eq)]
pub struct ResultNumbers {
    pub rows: u32,
    pub dim: u32,
    pub groups: u32,
}

impl ResultNumbers {
    /// What stands in the place of numbers before a call.
    const STALE: Self = Self {
        rows: u32::MAX,
        dim: u32::MAX,
        groups: u32::MAX,
    };
}

/// What a reader tells beside its result slices: 0 or the refusal's number, and the file's numbers, which are 0 after a refusal.
#[derive(Clone, Copy, Debug, PartialEq, Eq)]
pub struct ResultTold {
    pub number: u32,
    pub numbers: ResultNumbers,
}

/// The file of a grouping: 0, or the refusal's number and zeros.
pub fn write_result(
    numbers: ResultNumbers,
    order: &[u16],
    ends: &[u16],
    means: &[u32],
    file: &mut [u8],
) -> u32 {
    stack::with(stack::WRITE_RESULT, || unsafe {
        families_write_result(
            numbers.rows,
            numbers.dim,
            numbers.groups,
            order.as_ptr(),
            order.len(),
            ends.as_ptr(),
            ends.len(),
            means.as_ptr(),
            means.len(),
            file.as_mut_ptr(),
            file.len(),
        )
    })
}

/// The numbers of a file, which say how long the slices of `read_result` have to be.
pub fn result_numbers(file: &[u8]) -> ResultTold {
    let mut numbers = ResultNumbers::STALE;
    let number = stack::with(stack::RESULT_NUMBERS, || unsafe {
        families_result_numbers(
            file.as_ptr(),
            file.len(),
            &mut numbers.rows,
            &mut numbers.dim,
            &mut numbers.groups,
        )
    });
    ResultTold { number, numbers }
}

/// The grouping of a file.
pub fn read_result(
    file: &[u8],
    order: &mut [u16],
    ends: &mut [u16],
    means: &mut [u32],
) -> ResultTold {
    let mut numbers = ResultNumbers::STALE;
    let number = stack::with(stack::READ_RESULT, || unsafe {
        families_read_result(
            file.as_ptr(),
            file.len(),
            order.as_mut_ptr(),
            order.len(),
            ends.as_mut_ptr(),
            ends.len(),
            means.as_mut_ptr(),
            means.len(),
            &mut numbers.rows,
            &mut numbers.dim,
            &mut numbers.groups,
        )
    });
    ResultTold { number, numbers }
}
