//! `src/kmeans.rs` of the source, its functions in its order: sums in stated order for `sgemm`, one
//! fold in block order for the parallel ones, draws for the generator, document 01's order where a
//! sort meets ties, placements for bare labels; without the seed and progress lines.

use std::cmp::Ordering;

use crate::draws::Draws;
use crate::math::sgemm;

const RESEED_CANDIDATES: usize = 8;
const DEFAULT_MAX_POINTS_PER_CENTROID: usize = 256;
const DEFAULT_DECODE_BLOCK_SIZE: usize = 32_768;

#[derive(Debug, Clone)]
pub struct KMeansConfig {
    pub niter: usize,
    pub nredo: usize,
    pub spherical: bool,
    pub max_points_per_centroid: usize,
    pub decode_block_size: usize,
}

impl Default for KMeansConfig {
    fn default() -> Self {
        Self {
            niter: 25,
            nredo: 1,
            spherical: false,
            max_points_per_centroid: DEFAULT_MAX_POINTS_PER_CENTROID,
            decode_block_size: DEFAULT_DECODE_BLOCK_SIZE,
        }
    }
}

#[derive(Debug, Clone)]
pub struct KMeansResult {
    pub centroids: Vec<Vec<f32>>,
    pub assignments: Vec<usize>,
    pub objective: f64,
    /// Which restart was kept, from 0.
    pub restart: usize,
    /// How many rows its labelling of all rows left unplaced.
    pub unplaced: u32,
}

/// Generic in the vector, so that members which carry a row number can be passed as they are. The
/// source fixes `spherical` to false here; it is the caller's.
pub fn run_kmeans<V: AsRef<[f32]>>(
    data: &[V],
    k: usize,
    max_iter: usize,
    spherical: bool,
    draws: &mut Draws,
) -> KMeansResult {
    let config = KMeansConfig {
        niter: max_iter,
        nredo: 1,
        spherical,
        max_points_per_centroid: DEFAULT_MAX_POINTS_PER_CENTROID,
        decode_block_size: DEFAULT_DECODE_BLOCK_SIZE,
    };
    run_kmeans_with_config(data, k, config, draws)
}

pub fn run_kmeans_with_config<V: AsRef<[f32]>>(
    data: &[V],
    k: usize,
    config: KMeansConfig,
    draws: &mut Draws,
) -> KMeansResult {
    let dim = validate_inputs(data, k, config.niter);
    let rows = data.len();

    let flat = flatten_dataset(data, rows * dim);
    run_kmeans_flat(&flat, rows, dim, k, config, draws)
}

pub fn run_kmeans_flat(
    flat: &[f32],
    rows: usize,
    dim: usize,
    k: usize,
    config: KMeansConfig,
    draws: &mut Draws,
) -> KMeansResult {
    let picked = select_training_indices(rows, k, config.max_points_per_centroid, draws);

    let training_rows = picked.len();
    let gathered;
    let training: &[f32] = if training_rows == rows {
        flat
    } else {
        gathered = gather_rows(flat, &picked, dim);
        &gathered
    };

    let mut kept: Option<KMeansResult> = None;

    for restart in 0..config.nredo {
        let mut centroids = initialize_centroids_random(training, training_rows, dim, k, draws);

        let mut training_labels = vec![0; training_rows];
        let training_norms = compute_norms(training, training_rows, dim);

        run_lloyd_iterations(
            &mut centroids,
            config.niter,
            k,
            dim,
            training,
            &training_norms,
            &mut training_labels,
            draws,
            config.spherical,
            config.decode_block_size,
        );

        let norms = compute_norms(flat, rows, dim);
        let mut columns = Vec::with_capacity(dim * k);
        let mut column_norms = Vec::with_capacity(k);
        rebuild_centroid_views(&centroids, k, dim, &mut columns, &mut column_norms);

        let placements = assign_full_dataset(
            flat,
            &norms,
            k,
            dim,
            &columns,
            &column_norms,
            config.decode_block_size,
        );
        let unplaced = unplaced_of(&placements);
        let assignments: Vec<usize> = placements.iter().map(|found| found.label()).collect();

        let objective = compute_objective(flat, &centroids, &assignments, rows, dim);

        let result = KMeansResult {
            centroids: centroids.chunks(dim).map(<[f32]>::to_vec).collect(),
            assignments,
            objective,
            restart,
            unplaced,
        };

        if restart == 0 {
            kept = Some(result);
        } else {
            // A NaN is not below anything and nothing is below it, so a first NaN stays.
            let smaller = objective < kept.as_ref().unwrap().objective;
            if smaller {
                kept = Some(result);
            }
        }
    }

    kept.unwrap()
}

/// Callers refuse by number before these can fail.
fn validate_inputs<V: AsRef<[f32]>>(data: &[V], k: usize, max_iter: usize) -> usize {
    assert!(!data.is_empty(), "no data");
    assert!(k > 0, "no centroids asked for");
    assert!(max_iter > 0, "no iterations asked for");
    assert!(k <= data.len(), "more centroids than samples");

    let dim = data[0].as_ref().len();
    let alike = data.iter().all(|vector| vector.as_ref().len() == dim);
    assert!(alike, "vectors of several lengths");
    dim
}

fn flatten_dataset<V: AsRef<[f32]>>(data: &[V], capacity: usize) -> Vec<f32> {
    let mut flat = Vec::with_capacity(capacity);
    for vector in data {
        flat.extend_from_slice(vector.as_ref());
    }
    flat
}

fn select_training_indices(
    rows: usize,
    k: usize,
    max_points_per_centroid: usize,
    draws: &mut Draws,
) -> Vec<usize> {
    let target = k.max(rows.min(k * max_points_per_centroid));
    if target == rows {
        return (0..rows).collect();
    }

    let mut picked: Vec<usize> = (0..rows).collect();
    draws.pick(&mut picked, target);
    picked.truncate(target);
    picked.sort_unstable();
    picked
}

fn initialize_centroids_random(
    data: &[f32],
    rows: usize,
    dim: usize,
    k: usize,
    draws: &mut Draws,
) -> Vec<f32> {
    let mut positions: Vec<usize> = (0..rows).collect();
    draws.pick(&mut positions, k);
    positions.truncate(k);

    let mut centroids = Vec::with_capacity(k * dim);
    for &position in &positions {
        centroids.extend_from_slice(&data[position * dim..][..dim]);
    }
    centroids
}

pub(crate) fn compute_norms(data: &[f32], rows: usize, dim: usize) -> Vec<f32> {
    let mut norms = vec![0.0; rows];
    for (row, norm) in norms.iter_mut().enumerate() {
        // A loop, since `Iterator::sum` of floats starts at -0.0.
        for value in &data[row * dim..][..dim] {
            *norm += value * value;
        }
    }
    norms
}

fn compute_objective(
    data: &[f32],
    centroids: &[f32],
    assignments: &[usize],
    rows: usize,
    dim: usize,
) -> f64 {
    let mut objective = 0.0;
    for row in 0..rows {
        let cluster = assignments[row];
        let point = &data[row * dim..][..dim];
        let centroid = &centroids[cluster * dim..][..dim];
        let mut distance = 0.0;
        for d in 0..dim {
            // The subtraction is rounded to f32 and only then widened.
            let wide = f64::from(point[d] - centroid[d]);
            distance += wide * wide;
        }
        objective += distance;
    }
    objective
}

fn gather_rows(data: &[f32], indices: &[usize], dim: usize) -> Vec<f32> {
    let mut gathered = Vec::with_capacity(indices.len() * dim);
    for &row in indices {
        gathered.extend_from_slice(&data[row * dim..][..dim]);
    }
    gathered
}

#[allow(clippy::too_many_arguments)]
fn run_lloyd_iterations(
    centroids: &mut [f32],
    iterations: usize,
    k: usize,
    dim: usize,
    data: &[f32],
    norms: &[f32],
    assignments: &mut [usize],
    draws: &mut Draws,
    spherical: bool,
    decode_block_size: usize,
) {
    let mut columns = Vec::with_capacity(dim * k);
    let mut column_norms = Vec::with_capacity(k);

    for _ in 0..iterations {
        rebuild_centroid_views(centroids, k, dim, &mut columns, &mut column_norms);

        let summary = assign_points_for_update(
            data,
            norms,
            assignments,
            k,
            dim,
            &columns,
            &column_norms,
            decode_block_size,
        );

        update_centroids(centroids, k, dim, data, &summary, draws);

        if spherical {
            normalize_centroids(centroids, k, dim);
        }
    }
}

pub(crate) fn rebuild_centroid_views(
    centroids: &[f32],
    k: usize,
    dim: usize,
    columns: &mut Vec<f32>,
    column_norms: &mut Vec<f32>,
) {
    columns.clear();
    columns.resize(dim * k, 0.0);
    column_norms.clear();
    column_norms.resize(k, 0.0);

    for cluster in 0..k {
        let centroid = &centroids[cluster * dim..][..dim];
        let mut sum = 0.0;
        for (d, value) in centroid.iter().enumerate() {
            columns[d * k + cluster] = *value;
            sum += value * value;
        }
        column_norms[cluster] = sum;
    }
}

fn normalize_centroids(centroids: &mut [f32], k: usize, dim: usize) {
    for cluster in 0..k {
        let centroid = &mut centroids[cluster * dim..][..dim];
        let mut norm = 0.0f32;
        for value in centroid.iter() {
            norm += value * value;
        }
        // False for NaN too, so that such a centroid stays as it is.
        if norm > 0.0 {
            let inverse = norm.sqrt().recip();
            for value in centroid {
                *value *= inverse;
            }
        }
    }
}

#[derive(Debug)]
struct AssignmentSummary {
    counts: Vec<usize>,
    sums: Vec<f32>,
    candidates: Vec<(f32, usize)>,
}

/// The second field is resized and never read, in the source too.
struct KMeansBuffer {
    dot_products: Vec<f32>,
    sums: Vec<f32>,
}

impl KMeansBuffer {
    fn new() -> Self {
        Self {
            dot_products: vec![],
            sums: vec![],
        }
    }

    fn resize_for_chunk(&mut self, len: usize, k: usize, dim: usize) {
        for (cells, size) in [(&mut self.dot_products, len * k), (&mut self.sums, k * dim)] {
            cells.clear();
            cells.resize(size, 0.0);
        }
    }
}

/// The state of the one fold: counts and sums run on through all blocks.
struct ThreadLocalState {
    buffer: KMeansBuffer,
    counts: Vec<usize>,
    sums: Vec<f32>,
    candidates: Vec<(f32, usize)>,
    assignments: Vec<(usize, Vec<usize>)>,
}

impl ThreadLocalState {
    fn new(k: usize, dim: usize) -> Self {
        Self {
            buffer: KMeansBuffer::new(),
            counts: vec![0; k],
            sums: vec![0.0; k * dim],
            candidates: vec![],
            assignments: vec![],
        }
    }

    fn into_summary(self) -> AssignmentSummary {
        AssignmentSummary {
            counts: self.counts,
            sums: self.sums,
            candidates: self.candidates,
        }
    }
}

#[allow(clippy::too_many_arguments)]
fn assign_points_for_update(
    data: &[f32],
    norms: &[f32],
    assignments: &mut [usize],
    k: usize,
    dim: usize,
    columns: &[f32],
    column_norms: &[f32],
    decode_block_size: usize,
) -> AssignmentSummary {
    let rows = norms.len();
    let blocks = rows.div_ceil(decode_block_size);
    // Said once here, the length needs no check at every score.
    let column_norms = &column_norms[..k];

    let mut state = (0..blocks).fold(ThreadLocalState::new(k, dim), |mut state, block| {
        let start = block * decode_block_size;
        let end = rows.min(start + decode_block_size);
        let len = end - start;
        let block_data = &data[start * dim..end * dim];
        let block_norms = &norms[start..end];

        state.buffer.resize_for_chunk(len, k, dim);

        let dot_products = &mut state.buffer.dot_products;
        sgemm(dim, k, block_data, columns, dot_products);

        let mut labels = Vec::with_capacity(len);
        let mut pool = vec![];

        for row in 0..len {
            let norm = block_norms[row];
            let dots = &dot_products[row * k..][..k];
            let mut nearest = 0;
            let mut least = f32::INFINITY;

            for cluster in 0..k {
                let mut score = norm + column_norms[cluster] - 2.0 * dots[cluster];
                if score < 0.0 {
                    score = 0.0;
                }
                if score < least {
                    least = score;
                    nearest = cluster;
                }
            }

            let found = Placement::of(nearest, least);
            let nearest = found.label();
            labels.push(nearest);
            state.counts[nearest] += 1;

            let vector = &block_data[row * dim..][..dim];
            let sums = &mut state.sums[nearest * dim..][..dim];
            for d in 0..dim {
                sums[d] += vector[d];
            }

            insert_candidate(&mut pool, (found.distance(), row));
        }

        // A position inside the block becomes a training position before blocks are joined.
        for (distance, position) in pool {
            state.candidates.push((distance, start + position));
        }

        state.assignments.push((start, labels));
        state
    });

    state.assignments.sort_unstable_by_key(|block| block.0);
    for (start, labels) in &state.assignments {
        assignments[*start..][..labels.len()].copy_from_slice(labels);
    }

    state.into_summary()
}

fn insert_candidate(pool: &mut Vec<(f32, usize)>, entry: (f32, usize)) {
    if pool.len() < RESEED_CANDIDATES {
        pool.push(entry);
        pool.sort_unstable_by(farther_first);
        return;
    }
    if let Some(last) = pool.last() {
        if entry.0 > last.0 {
            pool.pop();
            pool.push(entry);
            pool.sort_unstable_by(farther_first);
        }
    }
}

fn update_centroids(
    centroids: &mut [f32],
    k: usize,
    dim: usize,
    data: &[f32],
    summary: &AssignmentSummary,
    draws: &mut Draws,
) {
    let rows = data.len() / dim;
    let mut pool = summary.candidates.clone();
    pool.sort_unstable_by(farther_first);
    let mut used = vec![false; rows];
    let mut refills = vec![];
    for (_, position) in pool {
        if !used[position] {
            used[position] = true;
            refills.push(position);
        }
    }
    let mut refills = refills.into_iter();

    for cluster in 0..k {
        let centroid = &mut centroids[cluster * dim..][..dim];
        let count = summary.counts[cluster];
        if count > 0 {
            let inverse = 1.0 / count as f32;
            let sums = &summary.sums[cluster * dim..][..dim];
            for d in 0..dim {
                centroid[d] = sums[d] * inverse;
            }
        } else {
            let position = refills
                .next()
                .unwrap_or_else(|| draws.drawn() as usize % rows);
            centroid.copy_from_slice(&data[position * dim..][..dim]);
        }
    }
}

pub(crate) fn assign_full_dataset(
    data: &[f32],
    norms: &[f32],
    k: usize,
    dim: usize,
    columns: &[f32],
    column_norms: &[f32],
    decode_block_size: usize,
) -> Vec<Placement> {
    let rows = norms.len();
    let blocks = rows.div_ceil(decode_block_size);
    let placements_of_blocks: Vec<(usize, Vec<Placement>)> = (0..blocks)
        .map(|block| {
            let start = block * decode_block_size;
            let end = rows.min(start + decode_block_size);
            let placements = compute_chunk_assignments_only(
                &data[start * dim..end * dim],
                &norms[start..end],
                end - start,
                k,
                dim,
                columns,
                column_norms,
            );
            (start, placements)
        })
        .collect();

    let mut assignments = vec![Placement::Unplaced; rows];
    for (start, placements) in placements_of_blocks {
        assignments[start..][..placements.len()].copy_from_slice(&placements);
    }
    assignments
}

fn compute_chunk_assignments_only(
    block_data: &[f32],
    block_norms: &[f32],
    len: usize,
    k: usize,
    dim: usize,
    columns: &[f32],
    column_norms: &[f32],
) -> Vec<Placement> {
    // As above, for the loop over clusters.
    let column_norms = &column_norms[..k];
    let mut dot_products = vec![0.0; len * k];
    sgemm(dim, k, block_data, columns, &mut dot_products);

    let mut placements = Vec::with_capacity(len);
    for row in 0..len {
        let norm = block_norms[row];
        let dots = &dot_products[row * k..][..k];
        let mut nearest = 0;
        let mut least = f32::INFINITY;
        for cluster in 0..k {
            let mut score = norm + column_norms[cluster] - 2.0 * dots[cluster];
            if score < 0.0 {
                score = 0.0;
            }
            if score < least {
                least = score;
                nearest = cluster;
            }
        }
        placements.push(Placement::of(nearest, least));
    }
    placements
}

// ---- not in the source

/// What the search for a row's nearest centroid answers.
#[derive(Clone, Copy, Debug, PartialEq)]
pub enum Placement {
    /// The first centroid of the least score, and that score, which is below infinity.
    Placed { label: usize, distance: f32 },
    /// No score is below infinity.
    Unplaced,
}

impl Placement {
    /// From what the loop over the scores ends with: it starts at infinity, and only a score below goes on from there.
    fn of(nearest: usize, least: f32) -> Self {
        match least < f32::INFINITY {
            true => Placement::Placed {
                label: nearest,
                distance: least,
            },
            false => Placement::Unplaced,
        }
    }

    /// The label that document 01 gives, 0 where nothing is found.
    pub fn label(self) -> usize {
        match self {
            Placement::Placed { label, .. } => label,
            Placement::Unplaced => 0,
        }
    }

    /// The distance that document 01 gives, infinity where nothing is found.
    pub fn distance(self) -> f32 {
        match self {
            Placement::Placed { distance, .. } => distance,
            Placement::Unplaced => f32::INFINITY,
        }
    }
}

/// How many rows nothing was found for.
pub(crate) fn unplaced_of(placements: &[Placement]) -> u32 {
    let unplaced = |found: &&Placement| matches!(found, Placement::Unplaced);
    placements.iter().filter(unplaced).count() as u32
}

/// The order of the pool: ties, which the source leaves to an unstable sort, by position.
fn farther_first(a: &(f32, usize), b: &(f32, usize)) -> Ordering {
    b.0.partial_cmp(&a.0)
        .unwrap_or(Ordering::Equal)
        .then(a.1.cmp(&b.1))
}

#[cfg(test)]
mod tests {
    use super::*;
    use crate::random::Random;

    fn pool_of(distances: &[f32]) -> Vec<(f32, usize)> {
        let mut pool = Vec::new();
        for (row, &distance) in distances.iter().enumerate() {
            insert_candidate(&mut pool, (distance, row));
        }
        pool
    }

    #[test]
    fn pool_is_the_first_eight_of_the_whole_order() {
        let mut random = Random::new(1, 0, 0);
        for rows in 0..40 {
            let distances: Vec<f32> = (0..rows).map(|_| random.below(5) as f32).collect();
            let mut whole: Vec<(f32, usize)> = distances.iter().copied().zip(0..).collect();
            whole.sort_by(farther_first);
            whole.truncate(RESEED_CANDIDATES);
            assert_eq!(pool_of(&distances), whole);
        }
    }

    #[test]
    fn an_equal_later_row_stays_out_of_a_full_pool() {
        let mut distances = vec![1.0; 9];
        distances.push(2.0);
        let positions: Vec<usize> = pool_of(&distances).iter().map(|c| c.1).collect();
        assert_eq!(positions, [9, 0, 1, 2, 3, 4, 5, 6]);
    }

    #[test]
    fn sums_run_through_blocks_as_one() {
        // 2^24 + 1 + 1 rounds differently if the two ones are added first.
        let data = [16_777_216.0, 1.0, 1.0];
        let norms = compute_norms(&data, 3, 1);
        for block in [1, 2, 3] {
            let mut labels = [0; 3];
            let summary =
                assign_points_for_update(&data, &norms, &mut labels, 1, 1, &[0.0], &[0.0], block);
            assert_eq!(summary.sums, [16_777_216.0]);
            assert_eq!(summary.counts, [3]);
        }
    }

    #[test]
    fn refills_come_from_the_pool_first_and_then_from_draws() {
        let data = [5.0, 6.0, 7.0];
        let summary = AssignmentSummary {
            counts: vec![0; 3],
            sums: vec![0.0; 3],
            candidates: vec![(4.0, 2)],
        };
        let list = [4];
        let mut draws = Draws::new(&list);
        let mut centroids = [0.0; 3];
        update_centroids(&mut centroids, 3, 1, &data, &summary, &mut draws);
        // The second draw is 5, since it is a pass later.
        assert_eq!(centroids, [7.0, 6.0, 7.0]);
        assert_eq!(draws.made(), 2);
    }

    /// A centroid after it was normalised, by bits.
    fn normalized<const DIM: usize>(mut centroid: [f32; DIM]) -> [u32; DIM] {
        normalize_centroids(&mut centroid, 1, DIM);
        centroid.map(f32::to_bits)
    }

    fn assert_normalized<const DIM: usize>(centroid: [f32; DIM], expected: [f32; DIM]) {
        assert_eq!(normalized(centroid), expected.map(f32::to_bits));
    }

    #[test]
    fn a_centroid_is_taken_times_the_reciprocal_of_its_root() {
        assert_normalized([3.0, -4.0], [3.0 * 0.2, -4.0 * 0.2]);
        // The root of 53 is one by which dividing would give another float.
        let root = 53.0f32.sqrt();
        assert_ne!(7.0 * (1.0 / root), 7.0 / root);
        assert_normalized([7.0, 2.0], [7.0 * (1.0 / root), 2.0 * (1.0 / root)]);
        // From the first value on 2^24 takes in neither 1, and from the last it takes in both.
        let falling = [4_096.0, 1.0, 1.0];
        assert_normalized(falling, falling.map(|value| value / 4_096.0));
        let rising = [1.0, 1.0, 4_096.0];
        let inverse = 1.0 / 16_777_218.0f32.sqrt();
        assert_normalized(rising, rising.map(|value| value * inverse));
        // -0.0 stays, and each centroid has a norm of its own.
        assert_normalized([-0.0, 2.0], [-0.0, 1.0]);
        let mut two = [2.0, 0.0, 0.0, 8.0];
        normalize_centroids(&mut two, 2, 2);
        assert_eq!(two, [1.0, 0.0, 0.0, 1.0]);
    }

    #[test]
    fn a_norm_that_is_not_above_zero_leaves_its_centroid() {
        assert_normalized([0.0, -0.0], [0.0, -0.0]);
        // Squares that vanish.
        assert_normalized([1e-30, -2e-30], [1e-30, -2e-30]);
        let [nan, three] = normalized([f32::NAN, 3.0]).map(f32::from_bits);
        assert!(nan.is_nan() && three == 3.0);
    }

    #[test]
    fn norms_at_the_ends_have_roots_too() {
        // An infinite norm: the inverse is 0, by which a number is 0 and infinity is none.
        assert_normalized([1e30, -1e30], [0.0, -0.0]);
        let [lost, zero] = normalized([f32::INFINITY, -3.0]).map(f32::from_bits);
        assert!(lost.is_nan() && zero.to_bits() == (-0.0f32).to_bits());
        // The smallest norm of all, 2^-149, whose root is no power of two.
        let small = f32::from_bits(0x1a35_04f3);
        assert_eq!((small * small).to_bits(), 1);
        let inverse = 1.0 / f32::from_bits(1).sqrt();
        assert_normalized([small], [small * inverse]);
    }

    /// One restart over rows of two values that all train, with draws of zero: the first rows are picked.
    fn spherical(values: &[f32], k: usize, niter: usize) -> KMeansResult {
        let config = KMeansConfig {
            niter,
            spherical: true,
            ..KMeansConfig::default()
        };
        let draws = &mut Draws::new(&[0; 8]);
        run_kmeans_flat(values, values.len() / 2, 2, k, config, draws)
    }

    #[test]
    fn picks_and_rows_are_not_normalized() {
        // The third row is nearer to (0, 1) than to (10, 0), and nearer to (1, 0) than to (0, 1).
        let found = spherical(&[10.0, 0.0, 0.0, 1.0, 1.0, 0.9], 2, 1);
        let mean = [0.5f32, 0.95];
        let inverse = (mean[0] * mean[0] + mean[1] * mean[1]).sqrt().recip();
        let scaled = mean.map(|value| value * inverse).to_vec();
        assert_eq!(found.centroids, [vec![1.0, 0.0], scaled]);
        // The labels and the objective go by these centroids, and by the rows as they are.
        assert_eq!(found.assignments, [0, 1, 1]);
        assert!(found.objective > 81.0);
    }

    #[test]
    fn refilled_centroids_are_normalized() {
        // All rows are nearest to the first pick or the third, so the second is refilled with the farthest row.
        let found = spherical(&[0.0, 2.0, 0.0, 2.0, 5.0, 0.0, 0.0, 3.0], 3, 1);
        assert_eq!(found.centroids[1], [0.0, 1.0]);
        // Ten equal rows and as many clusters: refilled from the pool, and the last from a draw.
        let equal = spherical(&[3.0, 0.0].repeat(10), 10, 2);
        assert!(equal
            .centroids
            .iter()
            .all(|centroid| *centroid == [1.0, 0.0]));
    }

    #[test]
    fn the_last_iteration_is_normalized_too() {
        for niter in [1, 2, 25] {
            let found = spherical(&[3.0, 4.0, 0.6, 0.8], 1, niter);
            let norm = compute_norms(&found.centroids[0], 1, 2)[0];
            assert!((norm - 1.0).abs() < 1e-6);
        }
    }

    #[test]
    fn training_rows_ascend_and_all_rows_need_no_draw() {
        let list = [2, 1];
        let mut draws = Draws::new(&list);
        assert_eq!(select_training_indices(3, 2, 1, &mut draws), [0, 2]);
        assert_eq!(draws.made(), 2);
        // The third draw is 3, the first number of the list a pass later.
        assert_eq!(select_training_indices(3, 1, 0, &mut draws), [0]);
        assert_eq!(select_training_indices(3, 2, 2, &mut draws), [0, 1, 2]);
        assert_eq!(draws.made(), 3);
    }
}
