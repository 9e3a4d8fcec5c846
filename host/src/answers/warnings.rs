//! Readings that the engine groups exactly as defined, and still not as a person expects: told before anyone acts on the families.

use super::report::Family;
use crate::reading::table::Table;

/// A score is a sum of some rounded terms; together they are off by up to about this part of the largest sum of squares.
const ROUNDING: f64 = 1.0 / (1 << 22) as f64;

/// The rounding may be this part of the spread before it is worth a word.
const NOTICED: f64 = 0.01;

/// What is to be said of rows that are to be grouped.
pub fn of_rows(table: &Table) -> Vec<String> {
    let overflowing = overflowing(table);
    match overflowing.first() {
        Some(first) => vec![overflow(table, overflowing.len(), *first)],
        None => cancellation(table, table).into_iter().collect(),
    }
}

/// What is to be said of rows that are held against centroids.
pub fn of_centroids(rows: &Table, centroids: &Table) -> Vec<String> {
    match rows.readings == centroids.readings && overflowing(rows).is_empty() {
        true => cancellation(rows, centroids).into_iter().collect(),
        false => Vec::new(),
    }
}

/// What is to be said of readings that stand beside a result file's families: means that are not theirs.
pub fn of_means(table: &Table, families: &[Family]) -> Vec<String> {
    let other = families.iter().enumerate().find_map(|(number, family)| {
        let means = mean(table, &family.rows);
        let mut pairs = family.mean.iter().zip(&means).enumerate();
        let (at, (its, mine)) = pairs.find(|(_, (its, mine))| !is_same(**its, **mine))?;
        Some(format!(
            "these are probably not the readings that the result file was made from: the mean of family {number} is {its} in the file and {mine} over these (reading {}), so serial numbers may stand in other meters' families",
            at + 1
        ))
    });
    other.into_iter().collect()
}

/// The mean of some rows as the engine makes it: summed in 32 bits in the family's order, and divided by their number.
fn mean(table: &Table, rows: &[usize]) -> Vec<f32> {
    let mut sums = vec![0.0f32; table.readings];
    for &row in rows {
        for (sum, value) in sums.iter_mut().zip(table.row(row)) {
            *sum += value;
        }
    }
    sums.into_iter()
        .map(|sum| sum / rows.len() as f32)
        .collect()
}

/// Bit by bit; which NaN a sum gives is the processor's choice.
fn is_same(one: f32, other: f32) -> bool {
    one.to_bits() == other.to_bits() || (one.is_nan() && other.is_nan())
}

/// The rows whose squared distances leave the range of 32-bit floats, or come close to it.
pub fn overflowing(table: &Table) -> Vec<usize> {
    let too_large = |row: &usize| squares(table.row(*row)) > f64::from(f32::MAX) / 4.0;
    (0..table.rows).filter(too_large).collect()
}

fn overflow(table: &Table, how_many: usize, first: usize) -> String {
    let largest = table.values.iter().fold(0.0, |a: f32, b| a.max(b.abs()));
    format!(
        "the squares of {how_many} meters' readings overflow 32-bit floats, the first being {}: such meters match no family; divide all readings by {largest:e} or so before grouping, and multiply the means by it",
        table.name(first)
    )
}

/// The score is a difference of squares, so readings far from zero leave little of it: `spread` has the rows that are to be told apart.
fn cancellation(rows: &Table, spread: &Table) -> Option<String> {
    let means = column_means(spread);
    let apart: f64 = (0..spread.rows)
        .map(|row| {
            let pairs = spread.row(row).iter().zip(&means);
            pairs
                .map(|(value, mean)| (f64::from(*value) - mean).powi(2))
                .sum::<f64>()
        })
        .sum::<f64>()
        / spread.rows.max(1) as f64;
    let largest = (0..rows.rows)
        .map(|row| squares(rows.row(row)))
        .fold(0.0, f64::max);
    let rounding = largest * ROUNDING;
    (apart > 0.0 && rounding > NOTICED * apart).then(|| {
        format!(
            "readings lie far from zero against their spread: scores are rounded by about {rounding:.1e}, and meters differ by {apart:.1e} (squares), so families may mix; subtract each column's mean ({}) from its readings before grouping, and add it to the means",
            shown(&means)
        )
    })
}

fn squares(row: &[f32]) -> f64 {
    row.iter().map(|value| f64::from(*value).powi(2)).sum()
}

fn column_means(table: &Table) -> Vec<f64> {
    let mean = |reading: usize| {
        let column = (0..table.rows).map(|row| f64::from(table.row(row)[reading]));
        column.sum::<f64>() / table.rows.max(1) as f64
    };
    (0..table.readings).map(mean).collect()
}

/// The first few, in short.
fn shown(means: &[f64]) -> String {
    let first: Vec<String> = means
        .iter()
        .take(3)
        .map(|mean| format!("{mean:.3}"))
        .collect();
    let more = if means.len() > 3 { ", .." } else { "" };
    format!("{}{more}", first.join(", "))
}

#[cfg(test)]
mod tests {
    use super::*;
    use crate::reading::table::tests::table;

    #[test]
    fn readings_near_zero_need_no_word() {
        assert!(of_rows(&table(2, &[0.1, 0.2, -0.3, 0.1, 0.6, -0.6])).is_empty());
        assert!(of_rows(&table(2, &[])).is_empty());
    }

    #[test]
    fn an_offset_that_cancels_is_told_and_equal_rows_are_not() {
        let shifted = |by: f32| table(1, &[by, by + 0.5, by - 0.5, by + 0.25]);
        assert!(of_rows(&shifted(10.0)).is_empty());
        let told = of_rows(&shifted(1_000.0));
        assert!(
            told[0].contains("subtract") && told[0].contains("1000.06"),
            "{told:?}"
        );
        assert!(of_rows(&table(1, &[1_000.0; 4])).is_empty());
    }

    #[test]
    fn squares_that_overflow_are_told_with_their_meter() {
        let told = of_rows(&table(2, &[1.0, 2.0, 3e19, 0.0, 1.0, 1.0]));
        assert_eq!(told.len(), 1);
        assert!(
            told[0].contains("overflow") && told[0].contains("being 1:"),
            "{told:?}"
        );
        assert_eq!(overflowing(&table(1, &[9e18, 1e19])), [1]);
    }

    fn family(rows: &[usize], mean: &[f32]) -> Family {
        Family {
            rows: rows.to_vec(),
            mean: mean.to_vec(),
        }
    }

    #[test]
    fn the_first_family_of_other_readings_is_told() {
        let table = table(2, &[1.0, 2.0, 3.0, 4.0, 0.1, -0.0]);
        let sound = [family(&[2], &[0.1, 0.0]), family(&[0, 1], &[2.0, 3.0])];
        assert!(of_means(&table, &sound).is_empty());
        let other = [
            family(&[2], &[0.1, 0.0]),
            family(&[1, 0], &[2.0, 3.5]),
            family(&[0], &[9.0; 2]),
        ];
        let told = of_means(&table, &other);
        assert_eq!(told.len(), 1);
        let words = "the mean of family 1 is 3.5 in the file and 3 over these (reading 2)";
        assert!(told[0].contains(words), "{told:?}");
        // Bits count, and the sum starts from +0.0.
        let signed = of_means(&table, &[family(&[2], &[0.1, -0.0])]);
        assert!(
            signed[0].contains("is -0 in the file and 0 over"),
            "{signed:?}"
        );
        assert!(of_means(&table, &[]).is_empty());
    }

    #[test]
    fn means_are_summed_in_32_bits_in_order_and_divided() {
        let values = [1e8f32, 1.0, -1e8, 0.1, 0.2, 0.3, 0.7];
        let table = table(1, &values);
        assert_eq!(mean(&table, &[0, 1, 2]), [0.0]);
        assert_eq!(mean(&table, &[0, 2, 1]), [1.0 / 3.0]);
        let sum = ((0.1f32 + 0.2) + 0.3) + 0.7;
        assert_eq!(mean(&table, &[3, 4, 5, 6]), [sum / 4.0]);
        // Divided, and not times the inverse.
        let ten = [3; 10];
        let sum = ten.iter().fold(0.0f32, |sum, _| sum + 0.1);
        assert_eq!(mean(&table, &ten), [sum / 10.0]);
        assert_ne!(sum / 10.0, sum * (1.0 / 10.0));
    }

    #[test]
    fn one_nan_is_as_good_as_another() {
        let odd = f32::from_bits(0xffc1_2345);
        let table = table(1, &[f32::MAX, f32::MAX, f32::MIN, f32::NEG_INFINITY]);
        assert!(of_means(&table, &[family(&[0, 1], &[f32::INFINITY])]).is_empty());
        assert!(of_means(&table, &[family(&[0, 1, 3], &[odd])]).is_empty());
        assert_eq!(of_means(&table, &[family(&[0, 1], &[odd])]).len(), 1);
    }

    #[test]
    fn rows_are_told_apart_by_their_centroids() {
        let one = table(1, &[1_000.0]);
        assert!(of_centroids(&one, &table(1, &[0.0, 900.0])).is_empty());
        assert_eq!(of_centroids(&one, &table(1, &[999.5, 1000.5])).len(), 1);
        assert!(of_centroids(&one, &table(2, &[999.5, 1000.5])).is_empty());
    }
}
