//! How far meters stand from their family's mean, which tells the families that did not come out alike.

use crate::answers::report::{Family, Report};
use crate::reading::table::Table;

/// A family is odd where its spread is above this many medians.
pub const ODD_ABOVE: f64 = 2.0;

/// The spreads of all families, which only mean something beside each other.
pub struct Spreads {
    /// In the families' order.
    pub each: Vec<f64>,
    /// None where there are no families.
    pub median: Option<f64>,
}

impl Spreads {
    /// Measures every family of a report.
    pub fn of(report: &Report) -> Spreads {
        let families = report.families.iter();
        let each: Vec<f64> = families
            .map(|family| distance(&family.rows, family, &report.table))
            .collect();
        let median = median(&each);
        Spreads { each, median }
    }

    /// Whether a family, by its number, is so wide that a person should look at it.
    pub fn is_odd(&self, family: usize) -> bool {
        self.median
            .is_some_and(|median| self.each[family] > ODD_ABOVE * median)
    }

    /// The numbers of the odd families.
    pub fn odd(&self) -> Vec<usize> {
        (0..self.each.len())
            .filter(|&family| self.is_odd(family))
            .collect()
    }
}

/// The root mean square difference of some of a family's rows from its mean; infinite where it is no number.
pub fn distance(rows: &[usize], family: &Family, table: &Table) -> f64 {
    let squares: f64 = rows
        .iter()
        .flat_map(|&row| table.row(row).iter().zip(&family.mean))
        .map(|(&reading, &mean)| (f64::from(reading) - f64::from(mean)).powi(2))
        .sum();
    let readings = (rows.len() * table.readings).max(1);
    let root = (squares / readings as f64).sqrt();
    if root.is_finite() {
        root
    } else {
        f64::INFINITY
    }
}

/// The middle value, or the mean of the middle two.
fn median(values: &[f64]) -> Option<f64> {
    let mut sorted = values.to_vec();
    sorted.sort_by(f64::total_cmp);
    let upper = *sorted.get(sorted.len() / 2)?;
    if sorted.len() % 2 == 1 {
        return Some(upper);
    }
    let lower = sorted[sorted.len() / 2 - 1];
    Some((lower + upper) / 2.0)
}

#[cfg(test)]
mod tests {
    use super::*;
    use crate::reading::table::tests::table;

    fn odd(each: &[f64]) -> Vec<usize> {
        let spreads = Spreads {
            each: each.to_vec(),
            median: median(each),
        };
        spreads.odd()
    }

    #[test]
    fn median_is_the_middle() {
        assert_eq!(median(&[]), None);
        assert_eq!(median(&[4.0]), Some(4.0));
        assert_eq!(median(&[9.0, 1.0, 3.0]), Some(3.0));
        assert_eq!(median(&[9.0, 1.0, 3.0, 4.0]), Some(3.5));
    }

    #[test]
    fn odd_is_above_twice_the_median() {
        assert!(odd(&[]).is_empty());
        assert!(odd(&[1.0, 1.0, 2.0]).is_empty());
        assert_eq!(odd(&[1.0, 2.25, 1.0]), [1]);
        assert!(odd(&[5.5, 1.0, 2.0, 4.0]).is_empty());
        assert_eq!(odd(&[7.0, 1.0, 2.0, 4.0]), [0]);
        assert_eq!(odd(&[0.0, 0.0, 0.5]), [2]);
    }

    #[test]
    fn spread_that_is_not_finite_is_odd_where_the_median_is_finite() {
        let endless = f64::INFINITY;
        assert_eq!(odd(&[1.0, endless, 1.0]), [1]);
        assert!(odd(&[1.0, endless, endless]).is_empty());
        assert!(odd(&[endless]).is_empty());
    }

    #[test]
    fn distance_is_over_meters_and_readings() {
        let table = table(2, &[1.0, 2.0, 3.0, 8.0]);
        let family = Family {
            rows: vec![0, 1],
            mean: vec![2.0, 5.0],
        };
        // The squares are 1, 9, 1 and 9.
        assert_eq!(distance(&family.rows, &family, &table), 5f64.sqrt());
        assert_eq!(distance(&[], &family, &table), 0.0);
    }

    #[test]
    fn distance_survives_huge_and_broken_values() {
        let table = table(2, &[f32::MAX, 0.0, f32::MIN, 0.0]);
        let family = |mean: [f32; 2]| Family {
            rows: vec![0, 1],
            mean: mean.to_vec(),
        };
        let all = |mean| distance(&[0, 1], &family(mean), &table);
        assert!((all([0.0, 0.0]) / f64::from(f32::MAX) - 0.5f64.sqrt()).abs() < 1e-9);
        assert_eq!(all([f32::INFINITY, 0.0]), f64::INFINITY);
        assert_eq!(all([f32::NAN, 0.0]), f64::INFINITY);
    }
}
