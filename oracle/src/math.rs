//! `l2_distance_sqr` of `src/math.rs` of the source, and what stands for `sgemm` of another crate:
//! sums in stated order, f32, from +0.0, index ascending, each product rounded before it is added.
//! Loops are written out because `Iterator::sum` of floats starts at -0.0.

/// Sum of (a−b)·(a−b).
#[inline]
pub fn l2_distance_sqr(a: &[f32], b: &[f32]) -> f32 {
    assert_eq!(a.len(), b.len());
    let mut sum = 0.0f32;
    for (x, y) in a.iter().zip(b) {
        let diff = x - y;
        sum += diff * diff;
    }
    sum
}

// ---- not in the source

/// The matrix product that scoring needs: rows of `dim` values against `k` centroids that lie as
/// columns, one dot at a time so that each has the stated order.
pub fn sgemm(dim: usize, k: usize, data: &[f32], columns: &[f32], dot_products: &mut [f32]) {
    for (row, dots) in data.chunks_exact(dim).zip(dot_products.chunks_exact_mut(k)) {
        for (cluster, out) in dots.iter_mut().enumerate() {
            *out = column_dot(row, columns, k, cluster);
        }
    }
}

/// Sum of a·b for a row and one column; lines of exactly `k` values need no copy of the column.
#[inline]
fn column_dot(row: &[f32], columns: &[f32], k: usize, cluster: usize) -> f32 {
    let mut sum = 0.0f32;
    for (x, line) in row.iter().zip(columns.chunks_exact(k)) {
        sum += x * line[cluster];
    }
    sum
}
