//! The four public operations as a caller meets them: flat slices and numbers in, refusals by
//! number, results in lent cells. Every lent cell is blanked first, so that a refusal leaves only
//! blanks and an acceptance blanks what it doesn't use. Lengths of work slices are decided
//! elsewhere; `work_fits` says whether they were right.

use crate::closure::ClosureAssigner;
use crate::clustering::{Grouping, HierarchicalClustering, Member};
use crate::draws::Draws;
use crate::kmeans::{
    assign_full_dataset, compute_norms, rebuild_centroid_views, run_kmeans_flat, unplaced_of,
    KMeansConfig, Placement,
};
use crate::refusal::{Mode, Refusal};

pub const BLANK_CELL: u16 = 65_535;
pub const BLANK_FLOAT: f32 = 0.0;
pub const BLANK_BYTE: u8 = 255;

/// A range of document 01, ends included.
#[derive(Clone, Copy, Debug)]
pub struct Range {
    pub low: u32,
    pub high: u32,
}

const fn range(low: u32, high: u32) -> Range {
    Range { low, high }
}

pub const ROWS: Range = range(0, 4_096);
pub const KMEANS_ROWS: Range = range(1, 4_096);
pub const DIM: Range = range(1, 64);
pub const K: Range = range(1, 64);
pub const CENTROID_COUNT: Range = range(0, 64);
pub const ITERATIONS: Range = range(1, 100);
pub const RESTARTS: Range = range(1, 16);
pub const POINTS_PER_CENTROID: Range = range(0, 4_096);
pub const BLOCK: Range = range(1, 32_768);
pub const SIZE_LIMIT: Range = range(0, 4_096);
pub const SPLIT_BUDGET: Range = range(0, 8_192);
pub const DRAW_COUNT: Range = range(1, 4_096);

/// 1, given before any length is looked at, so that products of the numbers stay small.
pub(crate) fn check_ranges(numbers: &[(u32, Range)]) -> Result<(), Refusal> {
    let all_in = numbers
        .iter()
        .all(|&(number, range)| range.low <= number && number <= range.high);
    all_in.then_some(()).ok_or(Refusal::OutOfRange)
}

/// 2: each pair is a length and what it must be.
pub(crate) fn check_lengths(lengths: &[(usize, u32)]) -> Result<(), Refusal> {
    let all_fit = lengths
        .iter()
        .all(|&(length, exact)| length == exact as usize);
    all_fit.then_some(()).ok_or(Refusal::WrongLength)
}

fn check_work(work_fits: bool) -> Result<(), Refusal> {
    work_fits.then_some(()).ok_or(Refusal::WrongLength)
}

/// 4: a draw list has no exact length, so its count is never refused by 1 or 2.
fn check_draws(draws: &[u32]) -> Result<(), Refusal> {
    let fits = draws.len() >= DRAW_COUNT.low as usize && draws.len() <= DRAW_COUNT.high as usize;
    fits.then_some(()).ok_or(Refusal::DrawCount)
}

/// Indices go to the front of the cells, the rest keeps its blanks.
fn write_cells(cells: &mut [u16], indices: impl IntoIterator<Item = usize>) {
    for (cell, index) in cells.iter_mut().zip(indices) {
        *cell = index as u16;
    }
}

// ---- labelling

/// Answers how many rows are unplaced, which the strict way refuses.
pub fn labelling(
    mode: Mode,
    rows: u32,
    dim: u32,
    k: u32,
    values: &[f32],
    centroids: &[f32],
    labels: &mut [u16],
) -> Result<u32, Refusal> {
    labels.fill(BLANK_CELL);
    let results = [labels.len()];
    let placements = placements(rows, dim, k, values, centroids, &results)?;
    let unplaced = unplaced_of(&placements);
    mode.check_placed(unplaced)?;
    write_cells(labels, placements.iter().map(|found| found.label()));
    Ok(unplaced)
}

/// As `labelling`, with each row's distance beside its label.
#[allow(clippy::too_many_arguments)]
pub fn placing(
    mode: Mode,
    rows: u32,
    dim: u32,
    k: u32,
    values: &[f32],
    centroids: &[f32],
    labels: &mut [u16],
    distances: &mut [f32],
) -> Result<u32, Refusal> {
    labels.fill(BLANK_CELL);
    distances.fill(BLANK_FLOAT);
    let results = [labels.len(), distances.len()];
    let placements = placements(rows, dim, k, values, centroids, &results)?;
    let unplaced = unplaced_of(&placements);
    mode.check_placed(unplaced)?;
    write_cells(labels, placements.iter().map(|found| found.label()));
    for (cell, found) in distances.iter_mut().zip(&placements) {
        *cell = found.distance();
    }
    Ok(unplaced)
}

/// What is found for each row; every result slice has a cell for each.
fn placements(
    rows: u32,
    dim: u32,
    k: u32,
    values: &[f32],
    centroids: &[f32],
    results: &[usize],
) -> Result<Vec<Placement>, Refusal> {
    check_ranges(&[(rows, ROWS), (dim, DIM), (k, K)])?;
    check_lengths(&[(values.len(), rows * dim), (centroids.len(), k * dim)])?;
    let results: Vec<_> = results.iter().map(|&length| (length, rows)).collect();
    check_lengths(&results)?;

    let (rows, dim, k) = (rows as usize, dim as usize, k as usize);
    Ok(label_rows(values, rows, dim, centroids, k))
}

/// The steps by which a restart of `run_kmeans_flat` labels all rows, as a call.
fn label_rows(
    values: &[f32],
    rows: usize,
    dim: usize,
    centroids: &[f32],
    k: usize,
) -> Vec<Placement> {
    let norms = compute_norms(values, rows, dim);
    let mut columns = Vec::with_capacity(dim * k);
    let mut column_norms = Vec::with_capacity(k);
    rebuild_centroid_views(centroids, k, dim, &mut columns, &mut column_norms);
    let block = KMeansConfig::default().decode_block_size;
    assign_full_dataset(values, &norms, k, dim, &columns, &column_norms, block)
}

// ---- k-means

#[derive(Clone, Copy, Debug, PartialEq, Eq)]
pub struct KMeansNumbers {
    pub rows: u32,
    pub dim: u32,
    pub k: u32,
    pub iterations: u32,
    pub restarts: u32,
    pub points_per_centroid: u32,
    pub block: u32,
    /// 0 is off and every other number on, so that none is out of range.
    pub spherical: u32,
}

impl KMeansNumbers {
    fn check_ranges(&self) -> Result<(), Refusal> {
        check_ranges(&[
            (self.rows, KMEANS_ROWS),
            (self.dim, DIM),
            (self.k, K),
            (self.iterations, ITERATIONS),
            (self.restarts, RESTARTS),
            (self.points_per_centroid, POINTS_PER_CENTROID),
            (self.block, BLOCK),
        ])
    }

    pub(crate) fn config(&self) -> KMeansConfig {
        KMeansConfig {
            niter: self.iterations as usize,
            nredo: self.restarts as usize,
            spherical: self.spherical != 0,
            max_points_per_centroid: self.points_per_centroid as usize,
            decode_block_size: self.block as usize,
        }
    }
}

/// The result slices lent to k-means.
pub struct KMeansLent<'a> {
    pub labels: &'a mut [u16],
    pub centroids: &'a mut [f32],
}

/// What comes with an acceptance only.
#[derive(Clone, Copy, Debug)]
pub struct KMeansAccepted {
    pub objective: f64,
    pub restart: u32,
    pub unplaced: u32,
}

pub fn kmeans(
    mode: Mode,
    numbers: &KMeansNumbers,
    values: &[f32],
    draws: &[u32],
    work_fits: bool,
    lent: KMeansLent,
) -> Result<KMeansAccepted, Refusal> {
    lent.labels.fill(BLANK_CELL);
    lent.centroids.fill(BLANK_FLOAT);
    numbers.check_ranges()?;
    check_lengths(&[
        (values.len(), numbers.rows * numbers.dim),
        (lent.labels.len(), numbers.rows),
        (lent.centroids.len(), numbers.k * numbers.dim),
    ])?;
    check_work(work_fits)?;
    if numbers.k > numbers.rows {
        return Err(Refusal::KAboveRows);
    }
    check_draws(draws)?;

    let result = run_kmeans_flat(
        values,
        numbers.rows as usize,
        numbers.dim as usize,
        numbers.k as usize,
        numbers.config(),
        &mut Draws::new(draws),
    );
    mode.check_placed(result.unplaced)?;
    write_cells(lent.labels, result.assignments);
    lent.centroids.copy_from_slice(&result.centroids.concat());
    Ok(KMeansAccepted {
        objective: result.objective,
        restart: result.restart as u32,
        unplaced: result.unplaced,
    })
}

// ---- grouping

#[derive(Clone, Copy, Debug)]
pub struct GroupingNumbers {
    pub rows: u32,
    pub dim: u32,
    pub size_limit: u32,
    pub branching: u32,
    pub weight: f32,
    pub budget: u32,
    /// As that of k-means, which it is passed on to.
    pub spherical: u32,
}

impl GroupingNumbers {
    fn check_ranges(&self) -> Result<(), Refusal> {
        check_ranges(&[
            (self.rows, ROWS),
            (self.dim, DIM),
            (self.size_limit, SIZE_LIMIT),
            (self.branching, K),
            (self.budget, SPLIT_BUDGET),
        ])
    }
}

/// The result slices lent to grouping.
pub struct GroupingLent<'a> {
    pub order: &'a mut [u16],
    pub ends: &'a mut [u16],
    pub means: &'a mut [f32],
}

impl GroupingLent<'_> {
    fn blank(&mut self) {
        self.order.fill(BLANK_CELL);
        self.ends.fill(BLANK_CELL);
        self.means.fill(BLANK_FLOAT);
    }

    fn write(&mut self, dim: usize, grouping: &Grouping) {
        let clusters = &grouping.clusters;
        let rows = clusters.iter().flat_map(|c| c.data()).map(|m| m.row);
        write_cells(self.order, rows);
        let ends = clusters.iter().scan(0, |end, c| {
            *end += c.size();
            Some(*end)
        });
        write_cells(self.ends, ends);
        for (mean, cluster) in self.means.chunks_exact_mut(dim).zip(clusters) {
            mean.copy_from_slice(cluster.centroid());
        }
    }
}

/// What comes with an acceptance only.
#[derive(Clone, Copy, Debug, PartialEq, Eq)]
pub struct GroupingAccepted {
    pub groups: u32,
    pub splits: u32,
    /// Summed over the splits.
    pub unplaced: u32,
}

pub fn grouping(
    mode: Mode,
    numbers: &GroupingNumbers,
    values: &[f32],
    draws: &[u32],
    work_fits: bool,
    mut lent: GroupingLent,
) -> Result<GroupingAccepted, Refusal> {
    lent.blank();
    numbers.check_ranges()?;
    check_lengths(&[
        (values.len(), numbers.rows * numbers.dim),
        (lent.order.len(), numbers.rows),
        (lent.ends.len(), numbers.rows),
        (lent.means.len(), numbers.rows * numbers.dim),
    ])?;
    check_work(work_fits)?;
    check_draws(draws)?;

    let dim = numbers.dim as usize;
    let clustering = HierarchicalClustering::new(
        numbers.size_limit as usize,
        numbers.branching as usize,
        numbers.weight,
        numbers.budget as usize,
        numbers.spherical != 0,
        mode,
    );
    let found = clustering.cluster(&members(values, dim), &mut Draws::new(draws))?;
    lent.write(dim, &found);
    Ok(GroupingAccepted {
        groups: found.clusters.len() as u32,
        splits: found.splits as u32,
        unplaced: found.unplaced,
    })
}

/// The rows of a flat slice, each with its number.
fn members(values: &[f32], dim: usize) -> Vec<Member> {
    let rows = values.chunks_exact(dim).enumerate();
    rows.map(|(row, vector)| Member {
        row,
        vector: vector.to_vec(),
    })
    .collect()
}

// ---- closure

/// Answers how many cells are listed.
pub fn closure(
    dim: u32,
    count: u32,
    max_replicas: u16,
    epsilon: f32,
    vector: &[f32],
    centroids: &[f32],
    cells: &mut [u16],
) -> Result<u16, Refusal> {
    cells.fill(BLANK_CELL);
    check_ranges(&[(dim, DIM), (count, CENTROID_COUNT)])?;
    check_lengths(&[
        (vector.len(), dim),
        (centroids.len(), count * dim),
        (cells.len(), count),
    ])?;

    let families: Vec<&[f32]> = centroids.chunks_exact(dim as usize).collect();
    let assigner = ClosureAssigner::new(epsilon, max_replicas as usize);
    let listed = assigner.assign(vector, &families)?;
    let how_many = listed.len() as u16;
    write_cells(cells, listed);
    Ok(how_many)
}

// ---- the exported functions on bytes

/// Labelling of one row: two result bytes hold the label. Answers 0 or the refusal.
pub fn label_bytes(
    mode: Mode,
    dim: u32,
    k: u32,
    row: &[u8],
    centroids: &[u8],
    result: &mut [u8],
) -> u32 {
    result.fill(BLANK_BYTE);
    refusal_number(try_label_bytes(mode, dim, k, row, centroids, result))
}

fn try_label_bytes(
    mode: Mode,
    dim: u32,
    k: u32,
    row: &[u8],
    centroids: &[u8],
    result: &mut [u8],
) -> Result<(), Refusal> {
    check_ranges(&[(dim, DIM), (k, K)])?;
    check_lengths(&[
        (row.len(), 4 * dim),
        (centroids.len(), 4 * k * dim),
        (result.len(), 2),
    ])?;
    let mut label = [BLANK_CELL];
    let (row, centroids) = (floats_of(row), floats_of(centroids));
    labelling(mode, 1, dim, k, &row, &centroids, &mut label)?;
    write_bytes(result, &label);
    Ok(())
}

/// Closure: two result bytes a centroid hold the cells, and two more how many are listed.
/// Answers 0 or the refusal.
pub fn closure_bytes(
    dim: u32,
    count: u32,
    max_replicas: u16,
    epsilon: f32,
    vector: &[u8],
    centroids: &[u8],
    result: &mut [u8],
) -> u32 {
    result.fill(BLANK_BYTE);
    let answer = try_closure_bytes(dim, count, max_replicas, epsilon, vector, centroids, result);
    refusal_number(answer)
}

fn try_closure_bytes(
    dim: u32,
    count: u32,
    max_replicas: u16,
    epsilon: f32,
    vector: &[u8],
    centroids: &[u8],
    result: &mut [u8],
) -> Result<(), Refusal> {
    check_ranges(&[(dim, DIM), (count, CENTROID_COUNT)])?;
    check_lengths(&[
        (vector.len(), 4 * dim),
        (centroids.len(), 4 * count * dim),
        (result.len(), 2 * count + 2),
    ])?;
    let (vector, centroids) = (floats_of(vector), floats_of(centroids));
    let mut cells = vec![BLANK_CELL; count as usize];
    let how_many = closure(
        dim,
        count,
        max_replicas,
        epsilon,
        &vector,
        &centroids,
        &mut cells,
    )?;
    cells.push(how_many);
    write_bytes(result, &cells);
    Ok(())
}

fn refusal_number(answer: Result<(), Refusal>) -> u32 {
    answer.err().map_or(0, Refusal::number)
}

/// Little-endian f32; a length that is no multiple of four has been refused before.
pub fn floats_of(bytes: &[u8]) -> Vec<f32> {
    words_of(bytes).into_iter().map(f32::from_bits).collect()
}

/// Little-endian u32.
pub fn words_of(bytes: &[u8]) -> Vec<u32> {
    bytes
        .chunks_exact(4)
        .map(|word| u32::from_le_bytes([word[0], word[1], word[2], word[3]]))
        .collect()
}

fn write_bytes(result: &mut [u8], cells: &[u16]) {
    for (bytes, cell) in result.chunks_exact_mut(2).zip(cells) {
        bytes.copy_from_slice(&cell.to_le_bytes());
    }
}
