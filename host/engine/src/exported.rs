//! The exported functions, each behind a safe wrapper. A slice goes as its pointer and its length, and a call that its thread has too
//! little stack for is made on another, so nothing is asked of the caller.

use crate::placement;
pub use crate::placement::Placement;
pub use crate::result_file::{read_result, result_numbers, write_result};
pub use crate::result_file::{ResultNumbers, ResultTold};
use crate::stack;
pub use crate::work::{GroupWork, KMeansWork};

/// The most rows that a call takes.
const MOST_ROWS: u32 = 4_096;

/// Declares an exported function, which is strict, and the one of the same signature whose name says that it is the old way.
macro_rules! two_ways {
    ($strict:ident, $old_way:ident, ($($name:ident: $type:ty),* $(,)?)) => {
        extern "C" {
            fn $strict($($name: $type),*) -> u32;
            fn $old_way($($name: $type),*) -> u32;
        }
    };
}

two_ways!(
    families_label,
    families_label_old_way,
    (
        dim: u32,
        k: u32,
        row: *const u8,
        row_bytes: usize,
        centroids: *const u8,
        centroid_bytes: usize,
        result: *mut u8,
        result_bytes: usize,
    )
);

two_ways!(
    families_label_rows,
    families_label_rows_old_way,
    (
        rows: u32,
        dim: u32,
        k: u32,
        values: *const f32,
        value_cells: usize,
        centroids: *const f32,
        centroid_cells: usize,
        labels: *mut u16,
        label_cells: usize,
        unplaced: *mut u32,
    )
);

two_ways!(
    families_place_rows,
    families_place_rows_old_way,
    (
        rows: u32,
        dim: u32,
        k: u32,
        values: *const f32,
        value_cells: usize,
        centroids: *const f32,
        centroid_cells: usize,
        labels: *mut u16,
        label_cells: usize,
        distances: *mut f32,
        distance_cells: usize,
        unplaced: *mut u32,
    )
);

two_ways!(
    families_kmeans,
    families_kmeans_old_way,
    (
        rows: u32,
        dim: u32,
        k: u32,
        iterations: u32,
        restarts: u32,
        points: u32,
        block: u32,
        spherical: u32,
        draws: *const u32,
        draw_count: usize,
        values: *const f32,
        value_cells: usize,
        labels: *mut u16,
        label_cells: usize,
        centroids: *mut f32,
        centroid_cells: usize,
        objective: *mut f64,
        restart: *mut u32,
        unplaced: *mut u32,
        training: *mut f32,
        training_cells: usize,
    )
);

two_ways!(
    families_group,
    families_group_old_way,
    (
        rows: u32,
        dim: u32,
        limit: u32,
        branching: u32,
        weight: f32,
        budget: u32,
        spherical: u32,
        draws: *const u32,
        draw_count: usize,
        values: *const f32,
        value_cells: usize,
        order: *mut u16,
        order_cells: usize,
        ends: *mut u16,
        end_cells: usize,
        means: *mut f32,
        mean_cells: usize,
        groups: *mut u32,
        splits: *mut u32,
        unplaced: *mut u32,
        gathered: *mut f32,
        gathered_cells: usize,
        training: *mut f32,
        training_cells: usize,
    )
);

extern "C" {
    fn families_closure(
        dim: u32,
        count: u32,
        max_replicas: u16,
        epsilon: f32,
        vector: *const u8,
        vector_bytes: usize,
        centroids: *const u8,
        centroid_bytes: usize,
        result: *mut u8,
        result_bytes: usize,
    ) -> u32;

    fn families_root(x: f32) -> f32;

    fn families_list(file: *const u8, file_bytes: usize, text: *mut u8, text_bytes: usize) -> u32;
}

/// What a call does about rows that are unplaced; every call that labels names its own.
#[derive(Clone, Copy, Debug, PartialEq, Eq)]
pub enum Mode {
    /// It is refused by 9.
    Strict,
    /// They have label 0 and are counted, as before document 02's request (iii).
    OldWay,
}

/// The label of one row, in two result bytes: 0, or the refusal's number.
pub fn label(mode: Mode, dim: u32, k: u32, row: &[u8], centroids: &[u8], result: &mut [u8]) -> u32 {
    let exported = match mode {
        Mode::Strict => families_label,
        Mode::OldWay => families_label_old_way,
    };
    stack::with(stack::LABEL, || unsafe {
        exported(
            dim,
            k,
            row.as_ptr(),
            row.len(),
            centroids.as_ptr(),
            centroids.len(),
            result.as_mut_ptr(),
            result.len(),
        )
    })
}

/// The families that a row is offered: a cell for each centroid and how many are listed, two bytes each.
pub fn closure(
    dim: u32,
    count: u32,
    max_replicas: u16,
    epsilon: f32,
    vector: &[u8],
    centroids: &[u8],
    result: &mut [u8],
) -> u32 {
    stack::with(stack::CLOSURE, || unsafe {
        families_closure(
            dim,
            count,
            max_replicas,
            epsilon,
            vector.as_ptr(),
            vector.len(),
            centroids.as_ptr(),
            centroids.len(),
            result.as_mut_ptr(),
            result.len(),
        )
    })
}

/// What labelling tells beside its result slices: 0 or the refusal's number, and how many rows are unplaced.
#[derive(Clone, Copy, Debug, PartialEq, Eq)]
pub struct LabelTold {
    pub number: u32,
    pub unplaced: u32,
}

/// The labels of many rows, over typed slices.
pub fn label_rows(
    mode: Mode,
    rows: u32,
    dim: u32,
    k: u32,
    values: &[f32],
    centroids: &[f32],
    labels: &mut [u16],
) -> LabelTold {
    // A figure that no call gives, so that one which the callee leaves alone shows; below likewise.
    let mut unplaced = u32::MAX;
    let exported = match mode {
        Mode::Strict => families_label_rows,
        Mode::OldWay => families_label_rows_old_way,
    };
    let number = stack::with(stack::LABEL_ROWS, || unsafe {
        exported(
            rows,
            dim,
            k,
            values.as_ptr(),
            values.len(),
            centroids.as_ptr(),
            centroids.len(),
            labels.as_mut_ptr(),
            labels.len(),
            &mut unplaced,
        )
    });
    LabelTold { number, unplaced }
}

/// As `label_rows`, with each row's distance in a cell beside its label.
#[allow(clippy::too_many_arguments)]
pub fn place_cells(
    mode: Mode,
    rows: u32,
    dim: u32,
    k: u32,
    values: &[f32],
    centroids: &[f32],
    labels: &mut [u16],
    distances: &mut [f32],
) -> LabelTold {
    let mut unplaced = u32::MAX;
    let exported = match mode {
        Mode::Strict => families_place_rows,
        Mode::OldWay => families_place_rows_old_way,
    };
    let number = stack::with(stack::PLACE_ROWS, || unsafe {
        exported(
            rows,
            dim,
            k,
            values.as_ptr(),
            values.len(),
            centroids.as_ptr(),
            centroids.len(),
            labels.as_mut_ptr(),
            labels.len(),
            distances.as_mut_ptr(),
            distances.len(),
            &mut unplaced,
        )
    });
    LabelTold { number, unplaced }
}

/// Where each of the rows is placed, or the refusal's number.
pub fn place_rows(
    mode: Mode,
    rows: u32,
    dim: u32,
    k: u32,
    values: &[f32],
    centroids: &[f32],
) -> Result<Vec<Placement>, u32> {
    // More rows than are allowed are refused whatever is lent, and may be too many to lend for.
    let cells = rows.min(MOST_ROWS) as usize;
    let mut labels = vec![0; cells];
    let mut distances = vec![0.0; cells];
    let told = place_cells(
        mode,
        rows,
        dim,
        k,
        values,
        centroids,
        &mut labels,
        &mut distances,
    );
    match told.number {
        0 => Ok(placement::of_cells(&labels, &distances)),
        number => Err(number),
    }
}

/// The numbers of a k-means call. `spherical` says whether centroids are normalised after each iteration: a bool, or for comparisons the
/// number that goes across, of which 0 is off and every other on.
#[derive(Clone, Copy, Debug)]
pub struct KMeansNumbers<Spherical = bool> {
    pub rows: u32,
    pub dim: u32,
    pub k: u32,
    pub iterations: u32,
    pub restarts: u32,
    pub points_per_centroid: u32,
    pub block: u32,
    pub spherical: Spherical,
}

/// What k-means tells beside its result slices: 0 or the refusal's number, the objective, the restart kept, and how many rows are
/// unplaced in that restart's labelling of all rows.
#[derive(Clone, Copy, Debug)]
pub struct KMeansTold {
    pub number: u32,
    pub objective: f64,
    pub restart: u32,
    pub unplaced: u32,
}

/// K-means over typed slices.
pub fn kmeans(
    mode: Mode,
    numbers: KMeansNumbers<impl Into<u32>>,
    draws: &[u32],
    values: &[f32],
    labels: &mut [u16],
    centroids: &mut [f32],
    work: &mut KMeansWork,
) -> KMeansTold {
    let mut objective = f64::NAN;
    let mut restart = u32::MAX;
    let mut unplaced = u32::MAX;
    let spherical = numbers.spherical.into();
    let exported = match mode {
        Mode::Strict => families_kmeans,
        Mode::OldWay => families_kmeans_old_way,
    };
    let number = stack::with(stack::KMEANS, || unsafe {
        exported(
            numbers.rows,
            numbers.dim,
            numbers.k,
            numbers.iterations,
            numbers.restarts,
            numbers.points_per_centroid,
            numbers.block,
            spherical,
            draws.as_ptr(),
            draws.len(),
            values.as_ptr(),
            values.len(),
            labels.as_mut_ptr(),
            labels.len(),
            centroids.as_mut_ptr(),
            centroids.len(),
            &mut objective,
            &mut restart,
            &mut unplaced,
            work.training.as_mut_ptr(),
            work.training.len(),
        )
    });
    KMeansTold {
        number,
        objective,
        restart,
        unplaced,
    }
}

/// The numbers of a grouping call; `spherical` is that of its k-means, and as there.
#[derive(Clone, Copy, Debug)]
pub struct GroupNumbers<Spherical = bool> {
    pub rows: u32,
    pub dim: u32,
    pub limit: u32,
    pub branching: u32,
    pub weight: f32,
    pub budget: u32,
    pub spherical: Spherical,
}

/// What grouping tells beside its result slices: 0 or the refusal's number, how many groups and splits there are, and how many rows
/// were unplaced, summed over the splits: a row counts once for each split that does not place it.
#[derive(Clone, Copy, Debug, PartialEq, Eq)]
pub struct GroupTold {
    pub number: u32,
    pub groups: u32,
    pub splits: u32,
    pub unplaced: u32,
}

/// Grouping over typed slices.
#[allow(clippy::too_many_arguments)]
pub fn group(
    mode: Mode,
    numbers: GroupNumbers<impl Into<u32>>,
    draws: &[u32],
    values: &[f32],
    order: &mut [u16],
    ends: &mut [u16],
    means: &mut [f32],
    work: &mut GroupWork,
) -> GroupTold {
    let mut groups = u32::MAX;
    let mut splits = u32::MAX;
    let mut unplaced = u32::MAX;
    let spherical = numbers.spherical.into();
    let exported = match mode {
        Mode::Strict => families_group,
        Mode::OldWay => families_group_old_way,
    };
    let number = stack::with(stack::GROUP, || unsafe {
        exported(
            numbers.rows,
            numbers.dim,
            numbers.limit,
            numbers.branching,
            numbers.weight,
            numbers.budget,
            spherical,
            draws.as_ptr(),
            draws.len(),
            values.as_ptr(),
            values.len(),
            order.as_mut_ptr(),
            order.len(),
            ends.as_mut_ptr(),
            ends.len(),
            means.as_mut_ptr(),
            means.len(),
            &mut groups,
            &mut splits,
            &mut unplaced,
            work.gathered.as_mut_ptr(),
            work.gathered.len(),
            work.training.as_mut_ptr(),
            work.training.len(),
        )
    });
    GroupTold {
        number,
        groups,
        splits,
        unplaced,
    }
}

/// The f32 nearest to the root: what normalising takes of a norm, here for comparisons.
pub fn root(x: f32) -> f32 {
    stack::with(stack::ROOT, || unsafe { families_root(x) })
}

/// The listing of a batch file, which is grouped in the strict mode and never spherically: how many bytes it has, and as many of them as there is room for.
pub fn list(file: &[u8], text: &mut [u8]) -> u32 {
    stack::with(stack::LIST, || unsafe {
        families_list(file.as_ptr(), file.len(), text.as_mut_ptr(), text.len())
    })
}
