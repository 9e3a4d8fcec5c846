//! The table of refusals row by row, which of them comes first, and the cells afterwards.

use oracle::batch::listing;
use oracle::calls::*;
use oracle::cases::{file_of, Case};
use oracle::cases::{ClosureBytesCase, ClosureCase, GroupingCase, KMeansCase, LabelBytesCase};
use oracle::cases::{LabelCase, PlaceCase, RestartsCase, TwoWays, STALE_BYTE};
use oracle::refusal::Mode;

const FAR: [u32; 3] = [65_536, 1 << 31, u32::MAX];

fn number_of<C: Case>(case: &C) -> u32 {
    C::number(&case.run())
}

fn strict_number_of<C: TwoWays>(case: &C) -> u32 {
    C::number(&case.run_in(Mode::Strict))
}

/// Sets a number to both ends of its range and past them; ends must not give 1.
fn try_range<C: Case + Clone>(base: &C, range: Range, set: impl Fn(&mut C, u32)) {
    let number_at = |value: u32| {
        let mut case = base.clone();
        set(&mut case, value);
        number_of(&case)
    };
    assert_ne!(number_at(range.low), 1, "{} low", C::NAME);
    assert_ne!(number_at(range.high), 1, "{} high", C::NAME);
    if range.low > 0 {
        assert_eq!(number_at(range.low - 1), 1, "{} below", C::NAME);
    }
    for value in FAR.into_iter().chain([range.high + 1]) {
        assert_eq!(number_at(value), 1, "{} {value}", C::NAME);
    }
}

fn label_case() -> LabelCase {
    LabelCase {
        rows: 3,
        dim: 2,
        k: 2,
        values: vec![1.0; 6],
        centroids: vec![0.0; 4],
        label_cells: 3,
    }
}

fn place_case() -> PlaceCase {
    PlaceCase::from(label_case())
}

fn kmeans_case() -> KMeansCase {
    KMeansCase {
        numbers: KMeansNumbers {
            rows: 4,
            dim: 2,
            k: 2,
            iterations: 3,
            restarts: 2,
            points_per_centroid: 256,
            block: 32_768,
            spherical: 0,
        },
        values: (0..8).map(|i| i as f32).collect(),
        draws: vec![1, 2, 3],
        work_fits: true,
        label_cells: 4,
        centroid_cells: 4,
    }
}

fn grouping_case() -> GroupingCase {
    let mut case = GroupingCase::simple(&[0.0, 1.0, 10.0, 11.0, 5.0, 6.0], 2, 2, 0.0, 8);
    case.numbers.dim = 2;
    case.numbers.rows = 3;
    case.order_cells = 3;
    case.end_cells = 3;
    case
}

fn closure_case() -> ClosureCase {
    ClosureCase {
        dim: 2,
        count: 2,
        max_replicas: 3,
        epsilon: 0.5,
        vector: vec![1.0; 2],
        centroids: vec![0.0; 4],
        cells: 2,
    }
}

fn label_bytes_case() -> LabelBytesCase {
    LabelBytesCase {
        dim: 2,
        k: 2,
        row: vec![0; 8],
        centroids: vec![0; 16],
        result_bytes: 2,
    }
}

fn closure_bytes_case() -> ClosureBytesCase {
    ClosureBytesCase::from(&closure_case())
}

#[test]
fn base_cases_are_accepted() {
    assert_eq!(number_of(&label_case()), 0);
    assert_eq!(number_of(&place_case()), 0);
    assert_eq!(number_of(&kmeans_case()), 0);
    assert_eq!(number_of(&grouping_case()), 0);
    assert_eq!(number_of(&closure_case()), 0);
    assert_eq!(number_of(&label_bytes_case()), 0);
    assert_eq!(number_of(&closure_bytes_case()), 0);
}

#[test]
fn refusal_1_labelling() {
    let base = label_case();
    try_range(&base, ROWS, |case, n| case.rows = n);
    try_range(&base, DIM, |case, n| case.dim = n);
    try_range(&base, K, |case, n| case.k = n);
    let base = place_case();
    try_range(&base, ROWS, |case, n| case.labelling.rows = n);
    try_range(&base, DIM, |case, n| case.labelling.dim = n);
    try_range(&base, K, |case, n| case.labelling.k = n);
}

#[test]
fn refusal_1_kmeans() {
    let base = kmeans_case();
    try_range(&base, KMEANS_ROWS, |case, n| case.numbers.rows = n);
    try_range(&base, DIM, |case, n| case.numbers.dim = n);
    try_range(&base, K, |case, n| case.numbers.k = n);
    try_range(&base, ITERATIONS, |case, n| case.numbers.iterations = n);
    try_range(&base, RESTARTS, |case, n| case.numbers.restarts = n);
    try_range(&base, POINTS_PER_CENTROID, |case, n| {
        case.numbers.points_per_centroid = n;
    });
    try_range(&base, BLOCK, |case, n| case.numbers.block = n);
}

#[test]
fn refusal_1_grouping() {
    let base = grouping_case();
    try_range(&base, ROWS, |case, n| case.numbers.rows = n);
    try_range(&base, DIM, |case, n| case.numbers.dim = n);
    try_range(&base, SIZE_LIMIT, |case, n| case.numbers.size_limit = n);
    try_range(&base, K, |case, n| case.numbers.branching = n);
    try_range(&base, SPLIT_BUDGET, |case, n| case.numbers.budget = n);
}

#[test]
fn refusal_1_closure_and_bytes() {
    try_range(&closure_case(), DIM, |case, n| case.dim = n);
    try_range(&closure_case(), CENTROID_COUNT, |case, n| case.count = n);
    try_range(&label_bytes_case(), DIM, |case, n| case.dim = n);
    try_range(&label_bytes_case(), K, |case, n| case.k = n);
    try_range(&closure_bytes_case(), DIM, |case, n| case.dim = n);
    try_range(&closure_bytes_case(), CENTROID_COUNT, |case, n| {
        case.count = n;
    });
}

#[test]
fn the_largest_calls_are_accepted() {
    let random = &mut oracle::random::Random::new(5, 0, 0);
    assert_eq!(number_of(&LabelCase::of(random, 4_096, 64, 64)), 0);
    assert_eq!(number_of(&ClosureCase::of(random, 1, 0)), 0);
    let mut case = kmeans_case();
    case.numbers = KMeansNumbers {
        rows: 4_096,
        dim: 64,
        k: 64,
        iterations: 1,
        restarts: 1,
        points_per_centroid: 4_096,
        block: 32_768,
        spherical: 0,
    };
    case.values = vec![1.5; 4_096 * 64];
    case.draws = vec![1; 4_096];
    case.label_cells = 4_096;
    case.centroid_cells = 4_096;
    assert_eq!(number_of(&case), 0);
}

/// Each change is one wrong length; 2 whether the length is too small or too large.
fn try_lengths<C: Case + Clone>(base: &C, changes: &[&dyn Fn(&mut C)]) {
    for (at, change) in changes.iter().enumerate() {
        let mut case = base.clone();
        change(&mut case);
        assert_eq!(number_of(&case), 2, "{} change {at}", C::NAME);
    }
}

#[test]
fn refusal_2_labelling_and_closure() {
    try_lengths(
        &label_case(),
        &[
            &|case| case.values.push(0.0),
            &|case| case.values.truncate(5),
            &|case| case.centroids.push(0.0),
            &|case| case.centroids.clear(),
            &|case| case.label_cells += 1,
            &|case| case.label_cells = 0,
        ],
    );
    try_lengths(
        &place_case(),
        &[
            &|case| case.labelling.values.push(0.0),
            &|case| case.labelling.centroids.clear(),
            &|case| case.labelling.label_cells += 1,
            &|case| case.distance_cells += 1,
            &|case| case.distance_cells -= 1,
            &|case| case.distance_cells = 0,
        ],
    );
    try_lengths(
        &closure_case(),
        &[
            &|case| case.vector.push(0.0),
            &|case| case.vector.clear(),
            &|case| case.centroids.push(0.0),
            &|case| case.centroids.truncate(2),
            &|case| case.cells += 1,
            &|case| case.cells = 0,
        ],
    );
}

#[test]
fn refusal_2_kmeans_and_grouping() {
    try_lengths(
        &kmeans_case(),
        &[
            &|case| case.values.push(0.0),
            &|case| case.values.clear(),
            &|case| case.label_cells += 1,
            &|case| case.label_cells -= 1,
            &|case| case.centroid_cells += 2,
            &|case| case.centroid_cells -= 1,
            &|case| case.work_fits = false,
        ],
    );
    try_lengths(
        &grouping_case(),
        &[
            &|case| case.values.push(0.0),
            &|case| case.values.clear(),
            &|case| case.order_cells += 1,
            &|case| case.order_cells -= 1,
            &|case| case.end_cells += 1,
            &|case| case.end_cells = 0,
            &|case| case.mean_cells += 1,
            &|case| case.mean_cells -= 1,
            &|case| case.work_fits = false,
        ],
    );
}

#[test]
fn refusal_2_bytes() {
    try_lengths(
        &label_bytes_case(),
        &[
            &|case| case.row.push(0),
            &|case| case.row.extend([0; 4]),
            &|case| case.row.truncate(4),
            &|case| case.centroids.truncate(15),
            &|case| case.centroids.clear(),
            &|case| case.result_bytes = 0,
            &|case| case.result_bytes = 1,
            &|case| case.result_bytes = 4,
        ],
    );
    try_lengths(
        &closure_bytes_case(),
        &[
            &|case| case.vector.push(0),
            &|case| case.vector.truncate(4),
            &|case| case.centroids.truncate(13),
            &|case| case.centroids.truncate(8),
            &|case| case.result_bytes = 4,
            &|case| case.result_bytes = 7,
            &|case| case.count = 0,
        ],
    );
}

#[test]
fn refusal_3_is_kmeans_alone() {
    let mut case = kmeans_case();
    case.numbers.k = 5;
    case.centroid_cells = 10;
    assert_eq!(number_of(&case), 3);
    case.numbers.k = 4;
    case.centroid_cells = 8;
    assert_eq!(number_of(&case), 0);
    case.numbers.rows = 0;
    case.values.clear();
    case.label_cells = 0;
    assert_eq!(number_of(&case), 1);

    let mut wide = grouping_case();
    wide.numbers.branching = 64;
    assert_eq!(number_of(&wide), 6);
}

#[test]
fn refusal_4_draw_lists() {
    for (count, number) in [(0, 4), (1, 0), (4_096, 0), (4_097, 4)] {
        let mut case = kmeans_case();
        case.draws = vec![1; count];
        assert_eq!(number_of(&case), number);
        let mut case = grouping_case();
        case.draws = vec![1; count];
        assert_eq!(number_of(&case), number);
    }
    let mut none = GroupingCase::simple(&[], 2, 2, 0.0, 0);
    assert_eq!(number_of(&none), 0);
    none.draws.clear();
    assert_eq!(number_of(&none), 4);
}

#[test]
fn the_lowest_of_1_to_4_is_given() {
    let mut case = kmeans_case();
    case.draws.clear();
    assert_eq!(number_of(&case), 4);
    case.numbers.k = 5;
    case.centroid_cells = 10;
    assert_eq!(number_of(&case), 3);
    case.label_cells = 3;
    assert_eq!(number_of(&case), 2);
    case.numbers.block = 0;
    assert_eq!(number_of(&case), 1);

    let mut case = grouping_case();
    case.numbers.branching = 64;
    case.draws.clear();
    assert_eq!(number_of(&case), 4);
    case.work_fits = false;
    assert_eq!(number_of(&case), 2);
    case.numbers.budget = 8_193;
    assert_eq!(number_of(&case), 1);
}

#[test]
fn refusal_5_two_centroids_and_a_nan_distance() {
    for max_replicas in [0, 1, 65_535] {
        let mut case = closure_case();
        case.max_replicas = max_replicas;
        case.centroids[3] = f32::NAN;
        assert_eq!(number_of(&case), 5);
        // Infinity minus infinity is a NaN distance too.
        case.centroids[3] = f32::INFINITY;
        assert_eq!(number_of(&case), 0);
        case.vector[1] = f32::INFINITY;
        assert_eq!(number_of(&case), 5);
        case.cells = 3;
        assert_eq!(number_of(&case), 2);
    }
    let mut one = closure_case();
    one.count = 1;
    one.centroids = vec![f32::NAN; 2];
    one.cells = 1;
    let outcome = one.run();
    assert_eq!((outcome.answer, outcome.cells), (Ok(0), vec![65_535]));
}

#[test]
fn refusals_6_and_7_fall_at_the_first_group_taken() {
    // The group taken first after the split, rows 2 to 6, is the one that decides.
    let values = [0.0, 1.0, 100.0, 101.0, 102.0, 103.0, 104.0];
    let spent = GroupingCase::simple(&values, 1, 2, 0.0, 1);
    assert_eq!(number_of(&spent), 7);
    // Size limit 0 finishes nothing: at last a group has fewer rows than branching.
    let fewer = GroupingCase::simple(&values, 0, 2, 0.0, 8_192);
    assert_eq!(number_of(&fewer), 6);
    // With branching 1 no group ever parts.
    let stuck = GroupingCase::simple(&values[..2], 1, 1, 0.0, 50);
    assert_eq!(number_of(&stuck), 7);
    // 6 goes before 7 at the same group.
    let both = GroupingCase::simple(&values[..3], 2, 4, 0.0, 0);
    assert_eq!(number_of(&both), 6);
}

fn file_number(rows: u32, dim: u32, values: usize, draws: usize) -> u32 {
    let mut numbers = GroupingCase::simple(&[], 4_096, 2, 0.0, 0).numbers;
    numbers.rows = rows;
    numbers.dim = dim;
    let file = file_of(b"remark", &numbers, &vec![1.0; values], &vec![0; draws]);
    let text = String::from_utf8(listing(&file)).unwrap();
    let refused = text.strip_prefix("refused ");
    refused.map_or(0, |number| number.trim_end().parse().unwrap())
}

#[test]
fn refusal_8_judges_the_shape_before_the_numbers() {
    assert_eq!(file_number(2, 3, 6, 1), 0);
    assert_eq!(file_number(2, 3, 5, 1), 8);
    assert_eq!(file_number(5_000, 1, 5_000, 1), 1);
    assert_eq!(file_number(5_000, 1, 4_999, 1), 8);
    assert_eq!(file_number(0, 1 << 31, 0, 1), 1);
    assert_eq!(file_number(u32::MAX, 0, 0, 1), 1);
    assert_eq!(file_number(0, 1, 0, 1), 0);
    assert_eq!(file_number(0, 1, 0, 0), 4);
    assert_eq!(file_number(1, 1, 1, 4_097), 4);
    assert_eq!(file_number(0, 65, 0, 0), 1);
    assert_eq!(file_number(1 << 31, 1 << 31, 0, 1), 8);
}

#[test]
fn refusal_8_lengths_of_the_file() {
    assert_eq!(listing(&[]), b"refused 8\n");
    assert_eq!(listing(&[0; 35]), b"refused 8\n");
    // Nine zero cells are well shaped: dim and branching are out of range.
    assert_eq!(listing(&[0; 36]), b"refused 1\n");
    assert_eq!(listing(&[0; 37]), b"refused 8\n");

    let numbers = GroupingCase::simple(&[0.5], 1, 2, 0.0, 0).numbers;
    let longest = vec![b'r'; 65_536 - 36 - 8];
    let file = file_of(&longest, &numbers, &[0.5], &[0]);
    assert_eq!(file.len(), 65_536);
    assert_eq!(listing(&file), b"accepted groups 1 splits 0\n1: 0\n");
    let longer = vec![b'r'; 65_537 - 36 - 8];
    let file = file_of(&longer, &numbers, &[0.5], &[0]);
    assert_eq!(listing(&file), b"refused 8\n");
}

/// A change to a case that is refused by 9 in the strict mode, and the number that it is then refused by in both, or 0.
type Spoil<'a, C> = (&'a dyn Fn(&mut C), u32);

/// What stands before 9 is given in both modes, and 9 alone is the strict one's.
fn assert_order<C: TwoWays + Clone>(unplaced: &C, spoils: &[Spoil<C>]) {
    assert_eq!(number_of(unplaced), 0, "{}", C::NAME);
    assert_eq!(strict_number_of(unplaced), 9, "{}", C::NAME);
    for (spoil, number) in spoils {
        let mut case = unplaced.clone();
        spoil(&mut case);
        assert_eq!(number_of(&case), *number, "{}", C::NAME);
        assert_eq!(strict_number_of(&case), *number, "{}", C::NAME);
    }
}

#[test]
fn refusal_9_comes_after_1_and_2_in_labelling() {
    let mut labels = label_case();
    labels.values[3] = f32::NAN;
    let spoils: [Spoil<LabelCase>; 3] = [
        (&|case| case.k = 65, 1),
        (&|case| case.label_cells += 1, 2),
        // No row is labelled, so that none is unplaced.
        (
            &|case| (case.rows, case.values, case.label_cells) = (0, vec![], 0),
            0,
        ),
    ];
    assert_order(&labels, &spoils);

    let spoils: [Spoil<PlaceCase>; 2] = [
        (&|case| case.labelling.dim = 0, 1),
        (&|case| case.distance_cells -= 1, 2),
    ];
    assert_order(&PlaceCase::from(labels), &spoils);

    let mut bytes = label_bytes_case();
    bytes.row = [f32::NAN, 0.0].map(f32::to_le_bytes).concat();
    let spoils: [Spoil<LabelBytesCase>; 2] =
        [(&|case| case.k = 0, 1), (&|case| case.result_bytes = 3, 2)];
    assert_order(&bytes, &spoils);
}

/// An unplaced row needs no odd reading: centroids that are all odd do as well.
#[test]
fn refusal_9_for_odd_centroids() {
    let mut case = label_case();
    case.centroids = vec![f32::NAN; 4];
    assert_eq!(strict_number_of(&case), 9);
    case.centroids[..2].fill(0.0);
    assert_eq!(strict_number_of(&case), 0);
}

#[test]
fn refusal_9_comes_after_1_to_4_in_kmeans() {
    let mut case = kmeans_case();
    case.values[0] = f32::NAN;
    let spoils: [Spoil<KMeansCase>; 4] = [
        (&|case| case.numbers.block = 0, 1),
        (&|case| case.work_fits = false, 2),
        (&|case| (case.numbers.k, case.centroid_cells) = (5, 10), 3),
        (&|case| case.draws.clear(), 4),
    ];
    assert_order(&case, &spoils);
}

#[test]
fn refusal_9_comes_after_6_and_7_in_grouping() {
    let mut case = grouping_case();
    case.values[0] = f32::NAN;
    let spoils: [Spoil<GroupingCase>; 6] = [
        (&|case| case.numbers.budget = 8_193, 1),
        (&|case| case.mean_cells += 1, 2),
        (&|case| case.draws.clear(), 4),
        (&|case| case.numbers.branching = 4, 6),
        (&|case| case.numbers.budget = 0, 7),
        // Nothing is labelled within the limit.
        (&|case| case.numbers.size_limit = 3, 0),
    ];
    assert_order(&case, &spoils);
    let none = GroupingCase::simple(&[], 2, 2, 0.0, 0);
    assert_eq!(strict_number_of(&none), 0);
}

/// The first group taken for which 6, 7 or 9 holds decides; 9 of a group comes after its own 6 and 7, and before those of later ones.
#[test]
fn refusal_9_falls_at_its_group() {
    // Balancing parts what nothing places; in the old way that comes to an end, or to the end of the budget.
    let nan = |budget| GroupingCase::simple(&[f32::NAN; 4], 1, 2, 0.5, budget);
    assert_eq!(
        [nan(3), nan(2), nan(0)].map(|case| number_of(&case)),
        [0, 7, 7]
    );
    let strict = [nan(3), nan(2), nan(0)].map(|case| strict_number_of(&case));
    assert_eq!(strict, [9, 9, 7]);
    // A limit of 0 ends by 6 at a group of one row, long after the first split.
    let fewer = GroupingCase::simple(&[f32::NAN; 4], 0, 2, 0.5, 9);
    assert_eq!((number_of(&fewer), strict_number_of(&fewer)), (6, 9));
    // The mean of rows of either sign is near enough to place them all; two rows of one sign have no such mean.
    let large = [1.5e19, -1.5e19, 1.5e19, -1.5e19, 1.5e19, -1.5e19];
    let later = |budget| GroupingCase::simple(&large, 1, 2, 0.5, budget);
    assert_eq!(strict_number_of(&later(9)), 9);
    assert_eq!(strict_number_of(&later(1)), 7);
    let parts = GroupingCase::simple(&large, 4, 2, 0.5, 1);
    assert_eq!(parts.run(), parts.run_in(Mode::Strict));
    assert_eq!(strict_number_of(&parts), 0);
}

/// Two restarts, of which one places every row and the other does not: the second is not kept, and then the first is.
#[test]
fn refusal_9_is_the_kept_restarts_alone() {
    let [by_second, by_kept] = &RestartsCase::built()[..] else {
        panic!("two cases are built");
    };
    let unplaced = |case: &RestartsCase| case.run().answer.unwrap().2;
    assert_eq!(
        by_second.0.strict_kinds(&by_second.run()),
        ["accepted, with unplaced rows in a restart not kept"]
    );
    assert_eq!((unplaced(by_second), strict_number_of(by_second)), (0, 0));
    assert_eq!((unplaced(by_kept), strict_number_of(by_kept)), (1, 9));
    // The other restart alone is accepted.
    let mut other = by_kept.clone();
    other.0.draws.drain(..2);
    other.0.numbers.restarts = 1;
    assert_eq!((unplaced(&other), strict_number_of(&other)), (0, 0));
}

#[test]
fn refusal_9_leaves_only_blanks() {
    let mut case = PlaceCase::from(label_case());
    case.labelling.values[3] = f32::NAN;
    let outcome = case.run_in(Mode::Strict);
    assert_eq!(
        (outcome.labels, outcome.distances),
        (vec![65_535; 3], vec![0; 3])
    );
    assert_eq!(case.labelling.run_in(Mode::Strict).labels, [65_535; 3]);

    let mut case = kmeans_case();
    case.values[0] = f32::NAN;
    let outcome = case.run_in(Mode::Strict);
    assert_eq!(
        (outcome.labels, outcome.centroids),
        (vec![65_535; 4], vec![0; 4])
    );

    let mut case = grouping_case();
    case.values[0] = f32::NAN;
    let outcome = case.run_in(Mode::Strict);
    assert_eq!(
        (outcome.order, outcome.ends),
        (vec![65_535; 3], vec![65_535; 3])
    );
    assert_eq!(outcome.means, [0; 6]);

    let nan = f32::NAN.to_le_bytes();
    let mut result = [STALE_BYTE; 2];
    assert_eq!(
        label_bytes(Mode::Strict, 1, 1, &nan, &[0; 4], &mut result),
        9
    );
    assert_eq!(result, [255; 2]);
    assert_eq!(
        label_bytes(Mode::OldWay, 1, 1, &nan, &[0; 4], &mut result),
        0
    );
    assert_eq!(result, [0; 2]);
}

#[test]
fn the_listing_is_strict() {
    let text = |case: &GroupingCase| {
        let file = file_of(b"", &case.numbers, &case.values, &case.draws);
        String::from_utf8(listing(&file)).unwrap()
    };
    let nan = [0.0, f32::NAN, 1.0];
    assert_eq!(
        text(&GroupingCase::simple(&nan, 2, 2, 0.5, 9)),
        "refused 9\n"
    );
    assert_eq!(
        text(&GroupingCase::simple(&nan, 2, 2, 0.5, 0)),
        "refused 7\n"
    );
    assert_eq!(
        text(&GroupingCase::simple(&nan, 2, 4, 0.5, 0)),
        "refused 6\n"
    );
    let within = "accepted groups 1 splits 0\n3: 0 1 2\n";
    assert_eq!(text(&GroupingCase::simple(&nan, 3, 2, 0.5, 9)), within);
}

#[test]
fn wrong_lengths_are_blanked_too() {
    let mut case = kmeans_case();
    case.label_cells = 7;
    case.centroid_cells = 9;
    let outcome = case.run();
    assert_eq!(outcome.labels, [65_535; 7]);
    assert_eq!(outcome.centroids, [0; 9]);

    let mut case = place_case();
    (case.labelling.label_cells, case.distance_cells) = (2, 7);
    let outcome = case.run();
    assert_eq!(outcome.labels, [65_535; 2]);
    assert_eq!(outcome.distances, [0; 7]);

    let mut case = grouping_case();
    (case.order_cells, case.end_cells, case.mean_cells) = (1, 5, 11);
    let outcome = case.run();
    assert_eq!(outcome.order, [65_535; 1]);
    assert_eq!(outcome.ends, [65_535; 5]);
    assert_eq!(outcome.means, [0; 11]);

    let mut result = [STALE_BYTE; 5];
    let strict = Mode::Strict;
    assert_eq!(label_bytes(strict, 1, 1, &[0; 4], &[0; 4], &mut result), 2);
    assert_eq!(result, [255; 5]);
    let mut result = [STALE_BYTE; 3];
    assert_eq!(closure_bytes(1, 65, 0, 0.0, &[], &[], &mut result), 1);
    assert_eq!(result, [255; 3]);
    let mut result = [STALE_BYTE; 2];
    assert_eq!(closure_bytes(1, 0, 3, 0.0, &[0; 4], &[], &mut result), 0);
    assert_eq!(result, [0, 0]);
}
