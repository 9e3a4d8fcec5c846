//! K-means and grouping with `spherical` on and off, by a bool and by any number; and the root.

use engine::exported::{self, GroupNumbers, GroupWork, KMeansNumbers, KMeansWork, Mode};

const MODES: [Mode; 2] = [Mode::Strict, Mode::OldWay];

/// Two shapes in turn, at the scales 1/2, 1, 2 and 4.
const GAINS: [f32; 16] = [
    0.4, 0.3, 0.3, 0.4, 0.8, 0.6, 0.6, 0.8, 1.6, 1.2, 1.2, 1.6, 3.2, 2.4, 2.4, 3.2,
];

/// The one centroid of all rows.
fn centroid(mode: Mode, values: &[f32], spherical: impl Into<u32>) -> [f32; 2] {
    let rows = values.len() / 2;
    let numbers = KMeansNumbers {
        rows: rows as u32,
        dim: 2,
        k: 1,
        iterations: 25,
        restarts: 1,
        points_per_centroid: 256,
        block: 32_768,
        spherical: spherical.into(),
    };
    let (mut labels, mut centroids) = (vec![9; rows], [9.0; 2]);
    let work = &mut KMeansWork::new(rows, 2, 9.0);
    let lent = (&mut labels, &mut centroids);
    let told = exported::kmeans(mode, numbers, &[0], values, lent.0, lent.1, work);
    assert_eq!((told.number, told.unplaced), (0, 0));
    assert!(labels.iter().all(|&label| label == 0));
    centroids
}

/// The rows of each family in row order, and the first family's mean.
fn families(mode: Mode, spherical: impl Into<u32>) -> (Vec<Vec<u16>>, [f32; 2]) {
    let numbers = GroupNumbers {
        rows: 8,
        dim: 2,
        limit: 4,
        branching: 2,
        weight: 0.0,
        budget: 9,
        spherical: spherical.into(),
    };
    let (mut order, mut ends, mut means) = ([9; 8], [9; 8], [9.0; 16]);
    let work = &mut GroupWork::new(8, 2, 9.0);
    let lent = (&mut order, &mut ends, &mut means);
    let draws = [0, 1];
    let told = exported::group(mode, numbers, &draws, &GAINS, lent.0, lent.1, lent.2, work);
    assert_eq!(told.number, 0);
    let mut start = 0;
    let family = ends[..told.groups as usize].iter().map(|&end| {
        let mut rows = order[start..end as usize].to_vec();
        rows.sort_unstable();
        start = end as usize;
        rows
    });
    (family.collect(), [means[0], means[1]])
}

#[test]
fn the_centroid_of_kmeans_has_a_norm_of_1() {
    let values = [3.0, 4.0, 6.0, 8.0];
    for mode in MODES {
        assert_eq!(centroid(mode, &values, false), [4.5, 6.0]);
        let inverse = (4.5f32 * 4.5 + 6.0 * 6.0).sqrt().recip();
        assert_eq!(
            centroid(mode, &values, true),
            [4.5 * inverse, 6.0 * inverse]
        );
    }
}

#[test]
fn every_number_but_0_is_on() {
    let values = [3.0, 4.0, 6.0, 8.0];
    for mode in MODES {
        let by = |number: u32| (centroid(mode, &values, number), families(mode, number));
        let on = (centroid(mode, &values, true), families(mode, true));
        let off = (centroid(mode, &values, false), families(mode, false));
        assert_eq!(by(0), off);
        assert_ne!(off, on);
        for number in [1, 2, 256, 65_536, 1 << 31, u32::MAX] {
            assert_eq!(by(number), on, "{number}");
        }
    }
}

#[test]
fn norms_that_have_no_inverse_leave_their_centroid() {
    let zero = centroid(Mode::Strict, &[0.0, 0.0], true);
    assert_eq!(zero.map(f32::to_bits), [0, 0]);
    // The squares vanish.
    let tiny = [1e-30, 2e-30];
    assert_eq!(centroid(Mode::Strict, &tiny, true), tiny);
}

#[test]
fn gain_only_rows_are_grouped_by_shape() {
    for mode in MODES {
        let (mut by_shape, mean) = families(mode, true);
        by_shape.sort();
        assert_eq!(by_shape, [[0, 2, 4, 6], [1, 3, 5, 7]]);
        // The mean is that of the rows.
        assert!((mean[0] + mean[1] - 1.875 * 1.4).abs() < 1e-5, "{mean:?}");
        let (by_distance, _) = families(mode, false);
        let mixes = |rows: &Vec<u16>| rows.iter().any(|row| row % 2 != rows[0] % 2);
        assert!(by_distance.iter().any(mixes), "{by_distance:?}");
    }
}

#[test]
fn roots_are_the_nearest() {
    for x in [0.0, -0.0, 1.0, 2.0, 53.0, 1e-45, f32::MAX, f32::INFINITY] {
        assert_eq!(exported::root(x).to_bits(), x.sqrt().to_bits(), "{x}");
    }
    for x in [-1.0, -1e-45, f32::NEG_INFINITY, f32::NAN] {
        assert!(exported::root(x).is_nan(), "{x}");
    }
}

/// Whether three rows of each of two shapes, this many degrees apart and all of the length 2^exponent, are grouped by shape.
fn told_apart(degrees: f64, exponent: i32) -> bool {
    let length = 2f64.powi(exponent);
    let (sine, cosine) = degrees.to_radians().sin_cos();
    let shapes = [[1.0, 0.0], [cosine, sine]].map(|shape| shape.map(|v| (v * length) as f32));
    let values = shapes.concat().repeat(3);
    let numbers = GroupNumbers {
        rows: 6,
        dim: 2,
        limit: 3,
        branching: 2,
        weight: 0.0,
        budget: 9,
        spherical: true,
    };
    let (mut order, mut ends, mut means) = ([9; 6], [9; 6], [9.0; 12]);
    let work = &mut GroupWork::new(6, 2, 9.0);
    let lent = (&mut order, &mut ends, &mut means);
    let draws = [0];
    let told = exported::group(
        Mode::Strict,
        numbers,
        &draws,
        &values,
        lent.0,
        lent.1,
        lent.2,
        work,
    );
    told.number == 0 && order[..3].iter().all(|row| row % 2 == order[0] % 2)
}

/// docs/HOST.md, 'families group', has these figures.
#[test]
fn a_row_far_from_length_1_loses_its_shape() {
    for (degrees, low, high) in [(90.0, -25, 24), (16.0, -21, 19), (1.0, -11, 11)] {
        for exponent in low..=high {
            assert!(told_apart(degrees, exponent), "{degrees} 2^{exponent}");
        }
        assert!(!told_apart(degrees, -30) && !told_apart(degrees, 30));
    }
}
