//! The bench examples of document 01, P1 to P12 and "Run".

use oracle::batch::listing;
use oracle::calls::{closure, closure_bytes, kmeans, label_bytes, labelling, placing};
use oracle::calls::{GroupingAccepted, KMeansLent, KMeansNumbers};
use oracle::cases::{file_of, Case, GroupingCase, TwoWays};
use oracle::clustering::{HierarchicalClustering, Member};
use oracle::draws::Draws;
use oracle::kmeans::{run_kmeans_flat, KMeansConfig};
use oracle::refusal::{Mode, Refusal};

fn listing_of(case: &GroupingCase) -> String {
    let file = file_of(b"", &case.numbers, &case.values, &case.draws);
    String::from_utf8(listing(&file)).unwrap()
}

/// The label of one row of one reading, and the refusal's number or 0: by labelling and on bytes the same.
fn label_of(mode: Mode, value: f32, centroids: &[f32]) -> (u32, u16) {
    let mut labels = [9];
    let k = centroids.len() as u32;
    let told = labelling(mode, 1, 1, k, &[value], centroids, &mut labels);

    let bytes: Vec<u8> = centroids.iter().flat_map(|c| c.to_le_bytes()).collect();
    let mut result = [9; 2];
    let answer = label_bytes(mode, 1, k, &value.to_le_bytes(), &bytes, &mut result);
    let number = told.err().map_or(0, Refusal::number);
    assert_eq!((answer, u16::from_le_bytes(result)), (number, labels[0]));
    (number, labels[0])
}

fn closure_of(epsilon: f32, max_replicas: u16) -> Vec<u16> {
    let centroids = [2.0, 1.0, -1.0];
    let mut cells = [9; 3];
    let n = closure(1, 3, max_replicas, epsilon, &[0.0], &centroids, &mut cells).unwrap();
    let (listed, rest) = cells.split_at(n as usize);
    assert!(rest.iter().all(|&cell| cell == 65_535));
    listed.to_vec()
}

/// Sizes after balancing clusters of these sizes, and how many rows moved.
fn balanced(sizes: &[usize], weight: f32) -> (Vec<usize>, usize) {
    let member = |row| Member {
        row,
        vector: vec![row as f32],
    };
    let clusters: Vec<Vec<Member>> = sizes
        .iter()
        .map(|&n| (0..n).map(member).collect())
        .collect();
    let centroids = vec![vec![0.0]; sizes.len()];
    let clustering = HierarchicalClustering::new(0, sizes.len(), weight, 0, false, Mode::Strict);
    let after: Vec<usize> = clustering
        .balance_clusters(clusters, &centroids)
        .iter()
        .map(|c| c.len())
        .collect();
    let moved = sizes
        .iter()
        .zip(&after)
        .map(|(before, after)| after.saturating_sub(*before))
        .sum();
    (after, moved)
}

#[test]
fn p1_listing_whole() {
    let case = GroupingCase::simple(&[0.0, 1.0, 10.0, 11.0], 2, 2, 0.0, 4);
    assert_eq!(
        listing_of(&case),
        "accepted groups 2 splits 1\n2: 2 3\n2: 0 1\n"
    );
}

#[test]
fn p1_result_cells() {
    let case = GroupingCase::simple(&[0.0, 1.0, 10.0, 11.0], 2, 2, 0.0, 4);
    let outcome = case.run();
    assert_eq!(outcome, case.run_in(Mode::Strict));
    let accepted = GroupingAccepted {
        groups: 2,
        splits: 1,
        unplaced: 0,
    };
    assert_eq!(outcome.answer, Ok(accepted));
    assert_eq!(outcome.order, [2, 3, 0, 1]);
    assert_eq!(outcome.ends, [2, 4, 65_535, 65_535]);
    assert_eq!(
        outcome.means,
        [10.5f32, 0.5, 0.0, 0.0].map(|mean| mean.to_bits())
    );
}

#[test]
fn p2_equal_rows_spend_the_budget_unless_balanced() {
    let mut case = GroupingCase::simple(&[3.0; 5], 4, 2, 0.0, 3);
    assert_eq!(listing_of(&case), "refused 7\n");
    case.numbers.weight = 0.5;
    assert_eq!(
        listing_of(&case),
        "accepted groups 2 splits 1\n2: 0 1\n3: 2 3 4\n"
    );
}

#[test]
fn p3_ten_moves() {
    assert_eq!(balanced(&[40, 0], 0.25), (vec![30, 10], 10));
    // The share is 20 and the allowance 25: one row above it gives, at it nobody does.
    assert_eq!(balanced(&[26, 14], 0.25), (vec![25, 15], 1));
    assert_eq!(balanced(&[25, 15], 0.25), (vec![25, 15], 0));
}

#[test]
fn p4_first_below_the_share_takes() {
    assert_eq!(balanced(&[30, 0, 0], 1.0), (vec![20, 10, 0], 10));
}

#[test]
fn p5_p6_p7_labels() {
    for mode in Mode::BOTH {
        assert_eq!(label_of(mode, 1.0, &[1.0, 1.0]), (0, 0));
        assert_eq!(label_of(mode, 2.0, &[f32::NAN, 2.0]), (0, 1));
    }
    // P7 is the old way's; beside it the refusal of request (iii) of document 02.
    assert_eq!(label_of(Mode::OldWay, f32::NAN, &[1.0, 2.0]), (0, 0));
    assert_eq!(label_of(Mode::Strict, f32::NAN, &[1.0, 2.0]), (9, 65_535));
}

/// Request (ii) of document 02: the distance, infinity where nothing is found, and how many rows that is so for.
#[test]
fn p5_p6_p7_placements() {
    let place = |mode: Mode, value: f32, centroids: &[f32]| {
        let (mut label, mut distance) = ([9], [9.0]);
        let k = centroids.len() as u32;
        let lent = (&mut label, &mut distance);
        let unplaced = placing(mode, 1, 1, k, &[value], centroids, lent.0, lent.1);
        (unplaced, label[0], distance[0])
    };
    for mode in Mode::BOTH {
        assert_eq!(place(mode, 1.0, &[1.0, 1.0]), (Ok(0), 0, 0.0));
        assert_eq!(place(mode, 2.5, &[f32::NAN, 2.0]), (Ok(0), 1, 0.25));
    }
    let p7 = |mode| place(mode, f32::NAN, &[1.0, 2.0]);
    assert_eq!(p7(Mode::OldWay), (Ok(1), 0, f32::INFINITY));
    assert_eq!(p7(Mode::Strict), (Err(Refusal::UnplacedRow), 65_535, 0.0));
}

#[test]
fn p8_p9_closure() {
    assert_eq!(closure_of(0.0, 3), [1, 2]);
    assert_eq!(closure_of(1.0, 3), [1, 2, 0]);
    assert_eq!(closure_of(0.0, 0), []);
}

#[test]
fn p8_closure_in_bytes() {
    let centroids: Vec<u8> = [2.0f32, 1.0, -1.0]
        .iter()
        .flat_map(|c| c.to_le_bytes())
        .collect();
    let mut result = [9; 8];
    let answer = closure_bytes(1, 3, 3, 0.0, &[0; 4], &centroids, &mut result);
    assert_eq!(answer, 0);
    assert_eq!(result, [1, 0, 2, 0, 255, 255, 2, 0]);
}

#[test]
fn p10_kmeans_of_two() {
    let numbers = KMeansNumbers {
        rows: 2,
        dim: 1,
        k: 1,
        iterations: 25,
        restarts: 1,
        points_per_centroid: 256,
        block: 32_768,
        spherical: 0,
    };
    for mode in Mode::BOTH {
        let (mut labels, mut centroids) = ([9; 2], [9.0; 1]);
        let lent = KMeansLent {
            labels: &mut labels,
            centroids: &mut centroids,
        };
        let accepted = kmeans(mode, &numbers, &[0.0, 1.0], &[0], true, lent).unwrap();
        assert_eq!((accepted.objective, accepted.restart), (0.5, 0));
        assert_eq!(accepted.unplaced, 0);
        assert_eq!((labels, centroids), ([0, 0], [0.5]));
    }
}

#[test]
fn p11_p12_refusals_of_an_oversize_group() {
    let three = [0.0, 1.0, 2.0];
    let fewer = GroupingCase::simple(&three, 2, 4, 0.0, 0);
    assert_eq!(listing_of(&fewer), "refused 6\n");
    let spent = GroupingCase::simple(&three, 2, 2, 0.0, 0);
    assert_eq!(listing_of(&spent), "refused 7\n");
    let fits = GroupingCase::simple(&three[..2], 2, 2, 0.0, 0);
    assert_eq!(listing_of(&fits), "accepted groups 1 splits 0\n2: 0 1\n");
}

/// Draws made by k-means of ten equal rows with k 10.
fn draws_made(iterations: usize, block: usize) -> usize {
    let config = KMeansConfig {
        niter: iterations,
        decode_block_size: block,
        ..KMeansConfig::default()
    };
    let list = [3, 1, 4];
    let mut draws = Draws::new(&list);
    run_kmeans_flat(&[1.0; 10], 10, 1, 10, config, &mut draws);
    draws.made()
}

#[test]
fn run_counts_draws_of_refills() {
    for iterations in [1, 2, 25, 100] {
        assert_eq!(draws_made(iterations, 32_768), 10 + iterations);
        assert_eq!(draws_made(iterations, 5), 10);
    }
}

#[test]
fn defaults_are_the_sources() {
    let config = KMeansConfig::default();
    assert_eq!((config.niter, config.nredo), (25, 1));
    assert_eq!(config.max_points_per_centroid, 256);
    assert_eq!(config.decode_block_size, 32_768);
    assert!(!config.spherical);
    let clustering = HierarchicalClustering::new(1, 2, 0.0, 3, false, Mode::Strict);
    assert_eq!(clustering.max_iterations, 100);
}

#[test]
fn picking_uses_a_draw_for_the_last_place_too() {
    let list = [5, 0, 7];
    let mut draws = Draws::new(&list);
    let mut places = [0, 1, 2];
    draws.pick(&mut places, 3);
    assert_eq!(places, [2, 1, 0]);
    assert_eq!(draws.made(), 3);
    // The first number again, a pass later.
    assert_eq!(draws.drawn(), 6);
}
