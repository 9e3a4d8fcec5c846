//! Grouping through its exported function: document 01's examples, and what is left in every lent cell.

use engine::exported::{group, GroupNumbers, GroupTold, GroupWork, Mode};

/// A call of rows of one reading with draws of zero, and what it left; every lent cell comes full of stale values.
#[derive(Debug, PartialEq)]
struct Call {
    told: GroupTold,
    order: Vec<u16>,
    ends: Vec<u16>,
    means: Vec<f32>,
}

const STALE_FLOAT: f32 = -7.25;
const STALE_CELL: u16 = 0x1234;
const BLANK: u16 = 65_535;

fn numbers(rows: usize, limit: u32, branching: u32, weight: f32, budget: u32) -> GroupNumbers {
    GroupNumbers {
        rows: rows as u32,
        dim: 1,
        limit,
        branching,
        weight,
        budget,
        spherical: false,
    }
}

fn call(mode: Mode, values: &[f32], numbers: GroupNumbers, work: &mut GroupWork) -> Call {
    let mut order = vec![STALE_CELL; values.len()];
    let mut ends = vec![STALE_CELL; values.len()];
    let mut means = vec![STALE_FLOAT; values.len()];
    let told = group(
        mode,
        numbers,
        &[0],
        values,
        &mut order,
        &mut ends,
        &mut means,
        work,
    );
    assert!(work.is_zero(), "work slices end all zero");
    Call {
        told,
        order,
        ends,
        means,
    }
}

fn fitting_in(mode: Mode, values: &[f32], limit: u32, weight: f32, budget: u32) -> Call {
    let mut work = GroupWork::new(values.len(), 1, STALE_FLOAT);
    let numbers = numbers(values.len(), limit, 2, weight, budget);
    call(mode, values, numbers, &mut work)
}

/// Of rows that are all placed: both modes give the same.
fn fitting(values: &[f32], limit: u32, branching: u32, weight: f32, budget: u32) -> Call {
    let numbers = numbers(values.len(), limit, branching, weight, budget);
    let [strict, old] = [Mode::Strict, Mode::OldWay].map(|mode| {
        let mut work = GroupWork::new(values.len(), 1, STALE_FLOAT);
        call(mode, values, numbers, &mut work)
    });
    assert_eq!(strict, old);
    strict
}

/// Of a call that places all rows.
fn told(groups: u32, splits: u32) -> GroupTold {
    GroupTold {
        number: 0,
        groups,
        splits,
        unplaced: 0,
    }
}

/// This number, all figures zero and all results blank.
fn assert_refused(call: &Call, number: u32) {
    let refused = GroupTold {
        number,
        groups: 0,
        splits: 0,
        unplaced: 0,
    };
    assert_eq!(call.told, refused);
    assert!(call.order.iter().all(|&cell| cell == BLANK));
    assert!(call.ends.iter().all(|&cell| cell == BLANK));
    assert!(call.means.iter().all(|mean| mean.to_bits() == 0));
}

#[test]
fn p1_has_two_groups_and_their_means() {
    let call = fitting(&[0.0, 1.0, 10.0, 11.0], 2, 2, 0.0, 4);
    assert_eq!(call.told, told(2, 1));
    assert_eq!(call.order, [2, 3, 0, 1]);
    assert_eq!(call.ends, [2, 4, BLANK, BLANK]);
    assert_eq!(call.means, [10.5, 0.5, 0.0, 0.0]);
}

#[test]
fn p2_is_refused_unless_its_parts_are_balanced() {
    assert_refused(&fitting(&[3.0; 5], 4, 2, 0.0, 3), 7);
    let balanced = fitting(&[3.0; 5], 4, 2, 0.5, 3);
    assert_eq!(balanced.told, told(2, 1));
    assert_eq!(balanced.order, [0, 1, 2, 3, 4]);
    assert_eq!(balanced.ends, [2, 5, BLANK, BLANK, BLANK]);
}

#[test]
fn p11_and_p12_and_no_split_at_all() {
    assert_refused(&fitting(&[0.0, 1.0, 2.0], 2, 4, 0.0, 0), 6);
    assert_refused(&fitting(&[0.0, 1.0, 2.0], 2, 2, 0.0, 0), 7);
    assert_eq!(fitting(&[0.0, 1.0], 2, 2, 0.0, 0).told, told(1, 0));
    assert_eq!(fitting(&[], 2, 2, 0.0, 0).told, told(0, 0));
}

/// Rows that nothing places, parted by balancing alone: four rows, then three of them, then two.
#[test]
fn unplaced_rows_count_in_every_split_of_the_old_way() {
    let old_way = |limit, budget| fitting_in(Mode::OldWay, &[f32::NAN; 4], limit, 0.5, budget);
    let counted = GroupTold {
        unplaced: 4 + 3 + 2,
        ..told(4, 3)
    };
    assert_eq!(old_way(1, 9).told, counted);
    assert_eq!(old_way(4, 9).told, told(1, 0));
    assert_refused(&old_way(1, 2), 7);
}

#[test]
fn unplaced_rows_are_refused_by_9_in_the_strict_mode() {
    let strict =
        |values: &[f32], limit, budget| fitting_in(Mode::Strict, values, limit, 0.5, budget);
    assert_refused(&strict(&[f32::NAN; 4], 1, 9), 9);
    // Where the budget ends later, and where it has ended; and where nothing is split.
    assert_refused(&strict(&[f32::NAN; 4], 1, 2), 9);
    assert_refused(&strict(&[f32::NAN; 4], 1, 0), 7);
    assert_eq!(strict(&[f32::NAN; 4], 4, 9).told, told(1, 0));
    assert_refused(&strict(&[f32::NAN], 0, 9), 6);
    // The first split places all rows, and the second cannot.
    let large = [1.5e19, -1.5e19, 1.5e19, -1.5e19, 1.5e19, -1.5e19];
    assert_refused(&strict(&large, 1, 9), 9);
    assert_refused(&strict(&large, 1, 1), 7);
    assert_eq!(strict(&large, 4, 9).told, told(2, 1));
}

#[test]
fn numbers_out_of_range_are_refused_by_1() {
    let values = [0.0, 1.0, 2.0];
    assert_refused(&fitting(&values, 4_097, 2, 0.0, 0), 1);
    assert_refused(&fitting(&values, 2, 0, 0.0, 0), 1);
    assert_refused(&fitting(&values, 2, 65, 0.0, 0), 1);
    assert_refused(&fitting(&values, 2, 2, 0.0, 8_193), 1);
}

/// A work slice made longer or shorter by a cell.
type Change = fn(&mut GroupWork);

#[test]
fn each_work_slice_of_another_length_is_refused_by_2() {
    let changes: [Change; 4] = [
        |work| work.gathered.push(STALE_FLOAT),
        |work| work.gathered.truncate(3),
        |work| work.training.push(STALE_FLOAT),
        |work| work.training.truncate(3),
    ];
    let values = [0.0, 1.0, 10.0, 11.0];
    for change in changes {
        let mut work = GroupWork::new(values.len(), 1, STALE_FLOAT);
        change(&mut work);
        let numbers = numbers(values.len(), 2, 2, 0.0, 4);
        assert_refused(&call(Mode::Strict, &values, numbers, &mut work), 2);
    }
}
