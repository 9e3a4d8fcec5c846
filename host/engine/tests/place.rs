//! Rows that match nothing: how labelling and k-means tell them from those of label 0 in the old way, and refuse them in the strict mode.

use engine::exported::{self, KMeansNumbers, KMeansWork, LabelTold, Mode, Placement};

/// One row at a centroid, one of NaN, one of infinity, one whose square overflows, one between the centroids.
const VALUES: [f32; 5] = [1.0, f32::NAN, f32::INFINITY, 2e19, 3.5];
const CENTROIDS: [f32; 3] = [1.0, 4.0, f32::NAN];

const STALE_FLOAT: f32 = -7.25;
const STALE_CELL: u16 = 0x1234;
const BLANK: u16 = 65_535;

const MODES: [Mode; 2] = [Mode::Strict, Mode::OldWay];

fn told(number: u32, unplaced: u32) -> LabelTold {
    LabelTold { number, unplaced }
}

fn place_cells(mode: Mode, labels: &mut [u16], distances: &mut [f32]) -> LabelTold {
    exported::place_cells(mode, 5, 1, 3, &VALUES, &CENTROIDS, labels, distances)
}

fn label_rows(mode: Mode, labels: &mut [u16]) -> LabelTold {
    exported::label_rows(mode, 5, 1, 3, &VALUES, &CENTROIDS, labels)
}

#[test]
fn label_0_and_no_label_are_told_apart() {
    let placements = exported::place_rows(Mode::OldWay, 5, 1, 3, &VALUES, &CENTROIDS);
    let placed = |label, distance| Placement::Placed { label, distance };
    let expected = [
        placed(0, 0.0),
        Placement::Unplaced,
        Placement::Unplaced,
        Placement::Unplaced,
        placed(1, 0.25),
    ];
    assert_eq!(placements.as_deref(), Ok(&expected[..]));
}

#[test]
fn cells_have_label_0_and_infinity_where_nothing_is_found() {
    let (mut labels, mut distances) = ([STALE_CELL; 5], [STALE_FLOAT; 5]);
    let with_distances = place_cells(Mode::OldWay, &mut labels, &mut distances);
    assert_eq!(with_distances, told(0, 3));
    assert_eq!(labels, [0, 0, 0, 0, 1]);
    let infinite = f32::INFINITY;
    assert_eq!(distances, [0.0, infinite, infinite, infinite, 0.25]);

    let mut labels = [STALE_CELL; 5];
    let alone = label_rows(Mode::OldWay, &mut labels);
    assert_eq!((alone, labels), (told(0, 3), [0, 0, 0, 0, 1]));
}

#[test]
fn the_strict_mode_refuses_by_9_and_leaves_blanks() {
    let (mut labels, mut distances) = ([STALE_CELL; 5], [STALE_FLOAT; 5]);
    let with_distances = place_cells(Mode::Strict, &mut labels, &mut distances);
    assert_eq!(with_distances, told(9, 0));
    assert_eq!(labels, [BLANK; 5]);
    assert!(distances.iter().all(|distance| distance.to_bits() == 0));

    let mut labels = [STALE_CELL; 5];
    let alone = label_rows(Mode::Strict, &mut labels);
    assert_eq!((alone, labels), (told(9, 0), [BLANK; 5]));
    let placements = exported::place_rows(Mode::Strict, 5, 1, 3, &VALUES, &CENTROIDS);
    assert_eq!(placements, Err(9));
}

/// P7 on bytes: its label is the old way's, and else it is refused.
#[test]
fn bytes_of_a_row_that_matches_nothing() {
    let centroids = [1.0f32, 2.0].map(f32::to_le_bytes).concat();
    let label = |mode, value: f32| {
        let mut result = [0x5a; 2];
        let row = value.to_le_bytes();
        (
            exported::label(mode, 1, 2, &row, &centroids, &mut result),
            result,
        )
    };
    assert_eq!(label(Mode::OldWay, f32::NAN), (0, [0, 0]));
    assert_eq!(label(Mode::Strict, f32::NAN), (9, [255, 255]));
    for mode in MODES {
        assert_eq!(label(mode, 2.5), (0, [1, 0]));
    }
}

#[test]
fn both_modes_give_the_same_where_every_row_is_placed() {
    let place = |mode| exported::place_rows(mode, 2, 1, 3, &[1.0, 3.5], &CENTROIDS);
    assert!(place(Mode::Strict).is_ok());
    assert_eq!(place(Mode::Strict), place(Mode::OldWay));
}

#[test]
fn no_rows_are_placed_nowhere() {
    for mode in MODES {
        let placements = exported::place_rows(mode, 0, 1, 1, &[], &[f32::NAN]);
        assert_eq!(placements, Ok(vec![]));
    }
}

#[test]
fn refusals_come_by_number_and_leave_blanks() {
    for mode in MODES {
        let place = |rows, dim, k| exported::place_rows(mode, rows, dim, k, &VALUES, &CENTROIDS);
        assert_eq!(place(5, 0, 3), Err(1));
        assert_eq!(place(5, 1, 2), Err(2));
        assert_eq!(place(u32::MAX, 1, 3), Err(1));
        for cells in [0, 4, 6] {
            let (mut labels, mut distances) = ([STALE_CELL; 5], vec![STALE_FLOAT; cells]);
            let refused = place_cells(mode, &mut labels, &mut distances);
            assert_eq!(refused, told(2, 0));
            assert_eq!(labels, [BLANK; 5]);
            assert!(distances.iter().all(|distance| distance.to_bits() == 0));
        }
        let mut labels = [STALE_CELL; 4];
        let refused = label_rows(mode, &mut labels);
        assert_eq!((refused, labels), (told(2, 0), [BLANK; 4]));
    }
}

/// K-means with one cluster, whose only centroid is what the training row was.
#[test]
fn kmeans_counts_its_labelling_of_all_rows() {
    let kmeans = |mode: Mode, values: &[f32], k: u32| {
        let numbers = KMeansNumbers {
            rows: values.len() as u32,
            dim: 1,
            k,
            iterations: 2,
            restarts: 1,
            points_per_centroid: 1,
            block: 32_768,
            spherical: false,
        };
        let mut labels = vec![STALE_CELL; values.len()];
        let mut centroids = vec![STALE_FLOAT; k as usize];
        let work = &mut KMeansWork::new(values.len(), 1, STALE_FLOAT);
        let lent = (&mut labels[..], &mut centroids[..]);
        let told = exported::kmeans(mode, numbers, &[0], values, lent.0, lent.1, work);
        assert!(work.is_zero(), "the work slice ends all zero");
        let blank = labels.iter().all(|&label| label == BLANK)
            && centroids.iter().all(|value| value.to_bits() == 0)
            && (told.objective.to_bits(), told.restart) == (0, 0);
        assert_eq!(blank, told.number != 0);
        (told.number, told.unplaced)
    };
    // The draw picks the first row to train: NaN is not among the training rows, and then it is the only one.
    let (last, first) = ([1.0, f32::NAN, 2.0], [f32::NAN, 1.0, 2.0]);
    assert_eq!(kmeans(Mode::OldWay, &last, 1), (0, 1));
    assert_eq!(kmeans(Mode::OldWay, &first, 1), (0, 3));
    for values in [last, first] {
        assert_eq!(kmeans(Mode::Strict, &values, 1), (9, 0));
    }
    for mode in MODES {
        assert_eq!(kmeans(mode, &[f32::NAN], 2), (3, 0));
        assert_eq!(kmeans(mode, &[1.0, 2.0, 3.0], 1), (0, 0));
    }
}
