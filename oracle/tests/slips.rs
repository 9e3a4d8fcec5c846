//! The generated cases tell each slip of documents 01 and 02 apart from the oracle.

const SEED: u64 = 20_260_226;
const CASES: u64 = 1_500;
const SAME_CASES: u64 = 300;

/// What the case of an index comes to, as text: a copy of the oracle with a slip in it has types of
/// its own, and two outcomes are equal exactly when their texts are.
macro_rules! outcome {
    ($($oracle:ident)::+, $case:ident) => {
        |index| {
            use $($oracle)::+::cases::{Case, $case};
            format!("{:?}", $case::generate(SEED, index).run())
        }
    };
    (strict $($oracle:ident)::+, $case:ident) => {
        |index| {
            use $($oracle)::+::cases::{Case, TwoWays, $case};
            use $($oracle)::+::refusal::Mode;
            format!("{:?}", $case::generate(SEED, index).run_in(Mode::Strict))
        }
    };
}

fn differing(cases: u64, right: fn(u64) -> String, wrong: fn(u64) -> String) -> usize {
    (0..cases)
        .filter(|&index| right(index) != wrong(index))
        .count()
}

macro_rules! assert_told_apart {
    ($slip:ident, $case:ident) => {
        let (right, wrong) = (outcome!(oracle, $case), outcome!(slipped::$slip, $case));
        let count = differing(CASES, right, wrong);
        let (slip, case) = (stringify!($slip), stringify!($case));
        println!("{slip}: {count} of {CASES} {case} differ");
        assert!(count > 0, "no {case} tells {slip} apart");
    };
}

/// In the strict mode; the old way is another slip's or nobody's.
macro_rules! assert_strict_told_apart {
    ($slip:ident, $case:ident) => {
        let right = outcome!(strict oracle, $case);
        let wrong = outcome!(strict slipped::$slip, $case);
        let count = differing(CASES, right, wrong);
        let (slip, case) = (stringify!($slip), stringify!($case));
        println!("{slip}: {count} of {CASES} strict {case} differ");
        assert!(count > 0, "no strict {case} tells {slip} apart");
    };
}

macro_rules! assert_same {
    ($case:ident: $($slip:ident),+) => {
        $(
            let (right, wrong) = (outcome!(oracle, $case), outcome!(slipped::$slip, $case));
            assert_eq!(differing(SAME_CASES, right, wrong), 0);
        )+
    };
}

macro_rules! assert_strict_same {
    ($case:ident: $($slip:ident),+) => {
        $(
            let right = outcome!(strict oracle, $case);
            let wrong = outcome!(strict slipped::$slip, $case);
            assert_eq!(differing(SAME_CASES, right, wrong), 0);
        )+
    };
}

#[test]
fn scoring_by_squared_differences() {
    assert_told_apart!(squared_differences, LabelCase);
    assert_told_apart!(squared_differences, KMeansCase);
    assert_told_apart!(squared_differences, GroupingCase);
}

#[test]
fn widening_before_the_subtraction() {
    assert_told_apart!(widening_first, KMeansCase);
}

#[test]
fn the_inverse_where_grouping_divides() {
    assert_told_apart!(inverse_mean, GroupingCase);
}

#[test]
fn balancing_toward_the_mean_of_the_moved_rows() {
    assert_told_apart!(balance_toward_mean, GroupingCase);
}

#[test]
fn finishing_groups_in_first_come_order() {
    assert_told_apart!(first_come, GroupingCase);
}

#[test]
fn letting_an_equal_later_row_into_a_full_pool() {
    assert_told_apart!(equal_later_row, KMeansCase);
}

#[test]
fn the_same_draws_on_every_pass() {
    assert_told_apart!(same_each_pass, KMeansCase);
    assert_told_apart!(same_each_pass, GroupingCase);
}

#[test]
fn label_0_counted_as_unplaced() {
    assert_told_apart!(zero_is_unplaced, LabelCase);
    assert_told_apart!(zero_is_unplaced, PlaceCase);
    assert_told_apart!(zero_is_unplaced, KMeansCase);
    assert_told_apart!(zero_is_unplaced, GroupingCase);
    // A listing is strict, so that it shows there too.
    assert_told_apart!(zero_is_unplaced, BatchCase);
}

#[test]
fn a_distance_of_zero_for_an_unplaced_row() {
    assert_told_apart!(unplaced_at_zero, PlaceCase);
}

#[test]
fn the_last_restarts_count() {
    assert_told_apart!(last_restarts_count, RestartsCase);
}

#[test]
fn training_rows_counted_as_unplaced() {
    assert_told_apart!(training_counted, KMeansCase);
    assert_told_apart!(training_counted, RestartsCase);
    assert_told_apart!(training_counted, GroupingCase);
}

#[test]
fn one_splits_count_left_out() {
    assert_told_apart!(first_split_uncounted, GroupingCase);
}

#[test]
fn nine_looked_for_before_seven_or_six() {
    assert_strict_told_apart!(nine_before_seven, GroupingCase);
    assert_told_apart!(nine_before_seven, BatchCase);
    assert_strict_told_apart!(nine_before_six, GroupingCase);
    assert_told_apart!(nine_before_six, BatchCase);
}

#[test]
fn the_whole_batch_looked_at_before_any_split() {
    assert_strict_told_apart!(whole_batch_first, GroupingCase);
    assert_told_apart!(whole_batch_first, BatchCase);
}

#[test]
fn later_splits_not_looked_at() {
    assert_strict_told_apart!(first_split_alone, GroupingCase);
}

#[test]
fn any_restart_refusing() {
    assert_strict_told_apart!(any_restart_refuses, RestartsCase);
}

#[test]
fn labels_left_in_the_cells_after_nine() {
    assert_strict_told_apart!(labels_left, LabelCase);
    assert_strict_told_apart!(labels_left, PlaceCase);
    assert_strict_told_apart!(labels_left, KMeansCase);
    assert_strict_told_apart!(label_bytes_left, LabelBytesCase);
}

#[test]
fn the_listing_in_the_old_way() {
    assert_told_apart!(listing_in_old_way, BatchCase);
}

#[test]
fn rows_or_picks_normalized() {
    assert_told_apart!(rows_normalized, SphericalCase);
    assert_told_apart!(rows_normalized, SphericalGroupingCase);
    assert_told_apart!(picks_normalized, SphericalCase);
    assert_told_apart!(picks_normalized, SphericalGroupingCase);
}

#[test]
fn another_root_or_a_division_by_it() {
    assert_told_apart!(divided_by_root, SphericalCase);
    assert_told_apart!(root_one_off, SphericalCase);
    assert_told_apart!(nan_normalized, SphericalCase);
}

#[test]
fn refills_or_the_last_iteration_left_out() {
    assert_told_apart!(refills_left_out, SphericalCase);
    assert_told_apart!(refills_left_out, SphericalGroupingCase);
    assert_told_apart!(last_left_out, SphericalCase);
    assert_told_apart!(last_left_out, SphericalGroupingCase);
}

#[test]
fn the_setting_kept_by_grouping_or_taken_to_the_means() {
    assert_told_apart!(not_passed_on, SphericalGroupingCase);
    assert_strict_told_apart!(not_passed_on, SphericalGroupingCase);
    assert_told_apart!(means_normalized, SphericalGroupingCase);
}

#[test]
fn ends_alike_or_a_last_one_other_than_rows() {
    assert_told_apart!(equal_ends, WriteResultCase);
    assert_told_apart!(equal_ends, ReadResultCase);
    assert_told_apart!(equal_ends, ResultNumbersCase);
    assert_told_apart!(last_end_free, WriteResultCase);
    assert_told_apart!(last_end_free, ReadResultCase);
    assert_told_apart!(last_end_free, ResultNumbersCase);
}

#[test]
fn a_row_twice_in_a_result() {
    assert_told_apart!(row_twice, WriteResultCase);
    assert_told_apart!(row_twice, ReadResultCase);
    assert_told_apart!(row_twice, ResultNumbersCase);
}

#[test]
fn negative_zero_as_blank_or_nans_made_one() {
    assert_told_apart!(negative_zero_blank, WriteResultCase);
    assert_told_apart!(one_nan, WriteResultCase);
    assert_told_apart!(one_nan, ResultTripCase);
}

#[test]
fn lengths_looked_at_before_the_file() {
    assert_told_apart!(two_before_ten, ReadResultCase);
}

#[test]
fn a_file_left_half_written() {
    assert_told_apart!(half_written, WriteResultCase);
}

#[test]
fn numbers_told_by_the_shape() {
    assert_told_apart!(numbers_by_shape, ResultNumbersCase);
}

/// Request (i) of document 02: what document 01's rule refused by 7 is parted on a later pass.
#[test]
fn a_stubborn_batch_under_both_rules() {
    use oracle::cases::{Case, GroupingCase};
    let case = GroupingCase::stubborn();
    let outcome = case.run();
    assert_eq!(case.draws, [0]);
    assert_eq!(GroupingCase::number(&outcome), 0);
    assert_eq!(outcome.order, [4, 5, 0, 1, 2, 3]);
    assert_eq!(outcome.ends[..3], [2, 4, 6]);

    use slipped::same_each_pass::cases as slipped;
    let wrong = slipped::GroupingCase::stubborn();
    let outcome = slipped::Case::run(&wrong);
    assert_eq!(
        <slipped::GroupingCase as slipped::Case>::number(&outcome),
        7
    );
}

#[test]
fn a_slip_changes_only_its_own_place() {
    assert_same!(LabelCase: widening_first, inverse_mean, balance_toward_mean, first_come, equal_later_row, same_each_pass);
    assert_same!(KMeansCase: inverse_mean, balance_toward_mean, first_come, first_split_uncounted);
    assert_same!(LabelCase: unplaced_at_zero, last_restarts_count, training_counted, first_split_uncounted);
    assert_same!(PlaceCase: last_restarts_count, training_counted, first_split_uncounted);
    // A count is no label, centroid, group or listing, as long as it is zero or not with and without the slip.
    assert_same!(BatchCase: last_restarts_count, training_counted, first_split_uncounted);
    // Where 9 stands is nothing to the old way, nor to a call that is no grouping.
    assert_same!(GroupingCase: nine_before_seven, nine_before_six, whole_batch_first, first_split_alone, any_restart_refuses);
    assert_same!(LabelCase: labels_left);
    assert_same!(PlaceCase: labels_left);
    assert_same!(KMeansCase: labels_left);
    assert_same!(LabelBytesCase: label_bytes_left);
    assert_strict_same!(LabelCase: any_restart_refuses, whole_batch_first, listing_in_old_way);
    assert_strict_same!(KMeansCase: nine_before_seven, whole_batch_first, listing_in_old_way);
    assert_strict_same!(GroupingCase: any_restart_refuses, labels_left, listing_in_old_way);
    // Request (iv) changes nothing where it is off, and has no place in a file.
    assert_same!(KMeansCase: rows_normalized, picks_normalized, divided_by_root, root_one_off, nan_normalized, refills_left_out, last_left_out);
    assert_same!(GroupingCase: rows_normalized, picks_normalized, last_left_out, not_passed_on, means_normalized);
    assert_same!(BatchCase: rows_normalized, picks_normalized, last_left_out, means_normalized);
    assert_same!(SphericalCase: not_passed_on, means_normalized);
    // Request (vi) stands apart, and its writer from its readers.
    assert_same!(BatchCase: equal_ends, last_end_free, row_twice);
    assert_same!(WriteResultCase: two_before_ten, numbers_by_shape);
    assert_same!(ReadResultCase: negative_zero_blank, half_written, one_nan, numbers_by_shape);
    assert_same!(ResultNumbersCase: negative_zero_blank, half_written, one_nan, two_before_ten);
    assert_same!(ResultTripCase: equal_ends, last_end_free, negative_zero_blank, two_before_ten, half_written, row_twice, numbers_by_shape);
}
