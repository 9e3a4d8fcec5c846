//! Rows against given centroids: what the exported functions take is made here, and a refusal is an error.

use engine::exported::{self, Mode, Placement};

use super::little_endian::halves;

fn bytes(values: &[f32]) -> Vec<u8> {
    let each = values.iter();
    each.flat_map(|value| value.to_bits().to_le_bytes())
        .collect()
}

/// Centroids as the exported functions take them.
#[derive(Clone, Debug)]
pub struct Centroids {
    count: u32,
    values: Vec<f32>,
    bytes: Vec<u8>,
}

impl Centroids {
    pub fn new(count: u32, values: &[f32]) -> Self {
        Self {
            count,
            values: values.to_vec(),
            bytes: bytes(values),
        }
    }

    /// Where each of the rows is placed, or the refusal's number. By the old way, since an unplaced row is an answer here.
    pub fn place(&self, dim: u32, rows: u32, values: &[f32]) -> Result<Vec<Placement>, u32> {
        exported::place_rows(Mode::OldWay, rows, dim, self.count, values, &self.values)
    }

    /// The centroids that one row is offered, closest first, or the refusal's number.
    pub fn closure(
        &self,
        dim: u32,
        replicas: u16,
        epsilon: f32,
        row: &[f32],
    ) -> Result<Vec<u16>, u32> {
        let count = self.count as usize;
        let mut result = vec![0; 2 * count + 2];
        let number = exported::closure(
            dim,
            self.count,
            replicas,
            epsilon,
            &bytes(row),
            &self.bytes,
            &mut result,
        );
        if number != 0 {
            return Err(number);
        }
        let mut listed = halves(&result);
        let how_many = listed[count] as usize;
        listed.truncate(how_many);
        Ok(listed)
    }
}

#[cfg(test)]
mod tests {
    use super::*;

    fn of_one_reading(values: &[f32]) -> Centroids {
        Centroids::new(values.len() as u32, values)
    }

    #[test]
    fn placements_of_p5_to_p7() {
        let place = |row: f32, centroids: &[f32]| of_one_reading(centroids).place(1, 1, &[row]);
        let placed = |label, distance| Ok(vec![Placement::Placed { label, distance }]);
        assert_eq!(place(1.0, &[1.0, 1.0]), placed(0, 0.0));
        assert_eq!(place(2.5, &[f32::NAN, 2.0]), placed(1, 0.25));
        assert_eq!(place(f32::NAN, &[1.0, 2.0]), Ok(vec![Placement::Unplaced]));
    }

    #[test]
    fn closures_of_p8_and_p9() {
        let centroids = of_one_reading(&[2.0, 1.0, -1.0]);
        assert_eq!(centroids.closure(1, 3, 0.0, &[0.0]), Ok(vec![1, 2]));
        assert_eq!(centroids.closure(1, 3, 1.0, &[0.0]), Ok(vec![1, 2, 0]));
        assert_eq!(centroids.closure(1, 0, 0.0, &[0.0]), Ok(vec![]));
    }

    #[test]
    fn refusals_come_by_number() {
        let centroids = of_one_reading(&[1.0, 2.0]);
        assert_eq!(centroids.place(0, 1, &[]), Err(1));
        assert_eq!(centroids.place(1, 1, &[1.0, 2.0]), Err(2));
        assert_eq!(of_one_reading(&[]).place(1, 1, &[1.0]), Err(1));
        assert_eq!(centroids.closure(65, 1, 0.0, &[1.0]), Err(1));
        assert_eq!(centroids.closure(1, 1, 0.0, &[1.0, 2.0]), Err(2));
        assert_eq!(centroids.closure(1, 0, 0.0, &[f32::NAN]), Err(5));
        assert_eq!(of_one_reading(&[]).closure(1, 1, 0.0, &[1.0]), Ok(vec![]));
    }
}
