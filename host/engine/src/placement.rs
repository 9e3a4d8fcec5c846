//! What labelling found for a row.

#[derive(Clone, Copy, Debug, PartialEq)]
pub enum Placement {
    /// The number of the nearest centroid, and the row's score against it, which is a squared distance.
    Placed { label: u16, distance: f32 },
    /// No centroid has a score below infinity.
    Unplaced,
}

/// From the cells of an accepted call. The exported contract makes infinity the distance of exactly the unplaced rows, and this is the
/// one place that reads it so.
pub(crate) fn of_cells(labels: &[u16], distances: &[f32]) -> Vec<Placement> {
    let each = labels.iter().zip(distances);
    each.map(|(&label, &distance)| match distance == f32::INFINITY {
        true => Placement::Unplaced,
        false => Placement::Placed { label, distance },
    })
    .collect()
}
