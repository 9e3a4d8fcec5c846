//! What a refusal of documents 01 and 02 was about, in the caller's own numbers, and what to change.

mod result_file;

use std::collections::HashMap;
use std::ops::RangeInclusive;

use super::settings::{Settings, BRANCHING, BUDGET, LIMIT};
use super::warnings;
use crate::reading::table::{Table, MAX_READINGS, MAX_ROWS};

const DRAWS: RangeInclusive<i64> = 1..=4_096;

/// Why a grouping of these rows was refused by this number.
pub fn of_grouping(number: u32, rows: &Table, settings: Settings, draws: usize) -> String {
    match number {
        1 => out_of_range(&[
            ("the number of rows", rows.rows, 0..=MAX_ROWS as i64),
            ("readings in a row", rows.readings, 1..=MAX_READINGS as i64),
            ("the limit", settings.limit as usize, LIMIT),
            ("the branching", settings.branching as usize, BRANCHING),
            ("the budget", settings.budget as usize, BUDGET),
        ]),
        4 => out_of_range(&[("the number of draws", draws, DRAWS)]),
        6 => too_few_rows(rows.rows, settings),
        7 => spent(rows, settings),
        9 => unplaced(rows),
        other => unknown(other),
    }
}

/// What a row was held against: the numbers and lengths of a call of `label` or `closure`.
#[derive(Clone, Copy, Debug)]
pub struct Nearest<'a> {
    pub dim: usize,
    pub row: &'a [f32],
    pub centroids: &'a Table,
    /// The fewest centroids that the call takes.
    pub fewest: i64,
}

/// Why a row was refused by this number.
pub fn of_row(number: u32, call: Nearest) -> String {
    let centroids = call.centroids;
    match number {
        1 => out_of_range(&[
            ("--dim", call.dim, 1..=MAX_READINGS as i64),
            ("the number of centroids", centroids.rows, call.fewest..=64),
        ]),
        2 => format!(
            "the row has {} readings and each centroid {}, where {} are asked for; all three have to be the same",
            call.row.len(),
            centroids.readings,
            call.dim
        ),
        5 => no_number(call),
        other => unknown(other),
    }
}

/// Why a file was refused by this number as a result file.
pub fn of_result_file(number: u32, file: &[u8]) -> String {
    match number {
        10 => format!(
            "no result file: {}; nothing of it is taken: have `families group --result` write it anew",
            result_file::unsound(file)
        ),
        other => unknown(other),
    }
}

/// That the engine would not write what it had grouped itself.
pub fn of_writing(number: u32) -> String {
    format!("the engine refused by {number} to write a grouping that it had made, which it never should; nothing was written")
}

fn out_of_range(numbers: &[(&str, usize, RangeInclusive<i64>)]) -> String {
    first_out_of_range(numbers).unwrap_or_else(|| "a number is out of its range".to_string())
}

fn first_out_of_range(numbers: &[(&str, usize, RangeInclusive<i64>)]) -> Option<String> {
    let is_out =
        |(_, value, range): &&(&str, usize, RangeInclusive<i64>)| !range.contains(&(*value as i64));
    let (name, value, range) = numbers.iter().find(is_out)?;
    Some(format!(
        "{name} is {value}; it goes from {} to {}",
        range.start(),
        range.end()
    ))
}

const NO_FAMILY: &str = "no family fits a limit of 0; take a limit of 1 or more";

/// The group has more rows than the limit and fewer than the branching; the batch itself is such a group, or one within it.
fn too_few_rows(rows: usize, settings: Settings) -> String {
    let Settings {
        limit, branching, ..
    } = settings;
    if limit == 0 {
        return NO_FAMILY.to_string();
    }
    let (low, high) = (limit + 1, branching.saturating_sub(1));
    let size = if rows < branching as usize {
        format!("{rows} rows")
    } else if low == high {
        format!("{low} rows")
    } else {
        format!("{low} to {high} rows")
    };
    format!(
        "a group of {size} is above the limit of {limit} and cannot be split into {branching} parts; a branching of {low} or less, or a limit of {high} or more, cannot be refused so"
    )
}

fn spent(rows: &Table, settings: Settings) -> String {
    let Settings {
        limit,
        branching,
        weight,
        budget,
    } = settings;
    let least = least_splits(rows.rows, limit as usize, branching as usize);
    let equal = most_equal(rows);
    let cause = if limit == 0 {
        NO_FAMILY.to_string()
    } else if branching == 1 {
        "a split into 1 part makes no group smaller; take a branching of 2 or more".to_string()
    } else if (budget as usize) < least {
        format!(
            "{} rows in families of at most {limit} need at least {least} splits into {branching} parts; take a budget of {least} or more",
            rows.rows
        )
    } else if let (Some((first, count)), false) = (equal, weight > 0.0) {
        match count > limit as usize {
            true => format!(
                "{count} meters have the very same readings, {} being the first, which is above the limit of {limit}; only a weight above 0 parts such meters",
                rows.name(first)
            ),
            false => stubborn(rows, settings),
        }
    } else {
        stubborn(rows, settings)
    };
    format!("a group above the limit is left and the budget of {budget} splits is spent: {cause}")
}

/// No rule tells: what helps as a rule.
fn stubborn(rows: &Table, settings: Settings) -> String {
    let overflowing = warnings::overflowing(rows).len();
    if overflowing > settings.limit as usize {
        return format!("the squares of {overflowing} meters' readings overflow, so that nothing parts them; divide all readings by one number before grouping");
    }
    let weight = match settings.weight > 0.0 {
        true => "",
        false => " or a weight above 0, which parts meters that are nearly alike",
    };
    format!("take a larger budget (up to 8192), another seed, a larger limit{weight}")
}

/// The engine tells no row. One whose own sum of squares is not finite is in the first group that is split, and matches nothing there; where
/// there is none, the squares of a meter and of every centroid overflow together.
fn unplaced(rows: &Table) -> String {
    let hopeless = meters_without_sum(rows);
    let cause = match hopeless.is_empty() {
        true => "it finds that each meter's squares add up to a number, so that they overflow only together with those of the centroids; divide all readings by one number before grouping".to_string(),
        false => format!(
            "it finds that no centroid can match {}, whose squares add up to infinity or to no number; leave out readings that are not finite, and divide all readings by one number where squares overflow",
            hopeless.join(", ")
        ),
    };
    format!("some meter matched no part of a split, so that nothing says which family it belongs to; the engine does not tell which meter, so this program summed the squares itself: {cause}; --allow-unplaced of `group` and `page` groups such meters all the same, as label 0, and counts them")
}

/// The meters whose sum of squares is infinite or no number, summed as the engine does: in 32 bits, from the first reading to the last, each
/// square rounded before it is added. All of them, since an operator has to find each.
fn meters_without_sum(rows: &Table) -> Vec<String> {
    let sum = |row: &[f32]| row.iter().fold(0.0f32, |sum, value| sum + value * value);
    let is_hopeless = |row: &usize| !sum(rows.row(*row)).is_finite();
    let hopeless = (0..rows.rows).filter(is_hopeless);
    hopeless.map(|row| rows.name(row)).collect()
}

/// Each split makes one group into at most `branching`, and every family has at most `limit` rows.
fn least_splits(rows: usize, limit: usize, branching: usize) -> usize {
    match (limit, branching) {
        (0, _) | (_, 0 | 1) => 0,
        _ => rows
            .div_ceil(limit)
            .saturating_sub(1)
            .div_ceil(branching - 1),
    }
}

/// The first of the most rows that are alike bit by bit, and how many they are.
fn most_equal(rows: &Table) -> Option<(usize, usize)> {
    let mut alike: HashMap<Vec<u32>, (usize, usize)> = HashMap::new();
    for row in 0..rows.rows {
        let bits = rows.row(row).iter().map(|value| value.to_bits()).collect();
        alike.entry(bits).or_insert((row, 0)).1 += 1;
    }
    alike
        .into_values()
        .max_by_key(|(first, count)| (*count, usize::MAX - first))
}

/// A distance is no number exactly where a difference is none: a reading that is none, or the same infinity on both sides.
fn no_number(call: Nearest) -> String {
    let differs = |centroid: usize, at: usize| call.row[at] - call.centroids.row(centroid)[at];
    let mut places = (0..call.centroids.rows).flat_map(|c| (0..call.dim).map(move |at| (c, at)));
    match places.find(|(centroid, at)| differs(*centroid, *at).is_nan()) {
        None => "the distance to some centroid is not a number".to_string(),
        Some((centroid, at)) => format!(
            "the distance to centroid {} is not a number: reading {} is {} here and {} there; leave out what is not finite",
            call.centroids.name(centroid),
            at + 1,
            call.row[at],
            call.centroids.row(centroid)[at]
        ),
    }
}

fn unknown(number: u32) -> String {
    format!("the engine's refusal {number}, which this program has no words for")
}

#[cfg(test)]
mod tests {
    use super::*;
    use crate::reading::table::tests::table;

    fn settings(limit: u32, branching: u32, weight: f32, budget: u32) -> Settings {
        Settings {
            limit,
            branching,
            weight,
            budget,
        }
    }

    fn assert_has(text: &str, words: &[&str]) {
        for word in words {
            assert!(text.contains(word), "no `{word}` in: {text}");
        }
    }

    #[test]
    fn numbers_out_of_range_are_told_with_their_range() {
        let rows = table(1, &[1.0]);
        let told = |settings| of_grouping(1, &rows, settings, 1);
        assert_has(
            &told(settings(4_097, 2, 0.0, 1)),
            &["limit is 4097", "0 to 4096"],
        );
        assert_has(
            &told(settings(1, 65, 0.0, 1)),
            &["branching is 65", "1 to 64"],
        );
        assert_has(
            &told(settings(1, 2, 0.0, 8_193)),
            &["budget is 8193", "8192"],
        );
        let told = of_grouping(4, &rows, settings(1, 2, 0.0, 1), 0);
        assert_has(&told, &["draws is 0", "1 to 4096"]);
    }

    #[test]
    fn a_group_too_small_to_split_is_told_by_its_size() {
        let told = |rows, settings| of_grouping(6, &table(1, &vec![0.5; rows]), settings, 1);
        let whole = told(3, settings(2, 64, 0.0, 1));
        assert_has(
            &whole,
            &[
                "3 rows",
                "limit of 2",
                "64 parts",
                "branching of 3",
                "limit of 63",
            ],
        );
        assert_has(&told(9, settings(2, 4, 0.0, 1)), &["group of 3 rows"]);
        assert_has(
            &told(99, settings(2, 64, 0.0, 1)),
            &["group of 3 to 63 rows"],
        );
    }

    #[test]
    fn a_spent_budget_has_its_likely_cause() {
        let distinct: Vec<f32> = (0..9).map(|n| n as f32).collect();
        let told = |values: &[f32], settings| of_grouping(7, &table(1, values), settings, 1);
        assert_has(
            &told(&distinct, settings(0, 2, 0.0, 5)),
            &["limit of 1 or more"],
        );
        assert_has(
            &told(&distinct, settings(2, 1, 0.0, 5)),
            &["branching of 2"],
        );
        let few = told(&distinct, settings(2, 2, 0.0, 3));
        assert_has(&few, &["budget of 3", "9 rows", "at least 4 splits"]);
        let equal = [1.0, 3.0, 3.0, 3.0, 3.0];
        let told_equal = told(&equal, settings(3, 2, 0.0, 9));
        assert_has(
            &told_equal,
            &["4 meters", "1 being the first", "weight above 0"],
        );
        let balanced = told(&equal, settings(3, 2, 0.5, 9));
        assert_has(&balanced, &["larger budget"]);
        assert!(!balanced.contains("weight"), "{balanced}");
        assert_has(
            &told(&distinct, settings(2, 2, 0.0, 9)),
            &["seed", "weight above 0"],
        );
        let huge = [1e30, 2e30, 3e30];
        assert_has(
            &told(&huge, settings(2, 2, 0.0, 9)),
            &["3 meters", "overflow"],
        );
    }

    #[test]
    fn meters_that_no_centroid_matches_are_named() {
        let told =
            |dim, values: &[f32]| of_grouping(9, &table(dim, values), settings(2, 2, 0.0, 9), 1);
        let two = told(2, &[1.0, 2.0, 1.5e19, 1.5e19, 0.0, f32::NAN, 1e19, 1e19]);
        assert_has(
            &two,
            &[
                "matched no part of a split",
                "the engine does not tell which meter, so this program summed",
                "no centroid can match 1, 2, whose",
                "--allow-unplaced of `group` and `page`",
            ],
        );
        // Each of them has a sum, which overflows when it is added to itself.
        let none = told(1, &[1.5e19, 1.5e19, -1.5e19]);
        let words = [
            "the engine does not tell",
            "each meter's squares add up to a number",
            "--allow-unplaced",
        ];
        assert_has(&none, &words);
        assert!(!none.contains("can match"), "{none}");
        let many = told(1, &[f32::INFINITY; 25]);
        assert_has(&many, &["match 0, 1, 2, ", ", 23, 24, whose"]);
    }

    #[test]
    fn a_result_file_is_told_by_its_number_and_what_to_do() {
        let told = of_result_file(10, b"no such file");
        assert_has(&told, &["no result file: it has 12 bytes", "write it anew"]);
        assert_has(&of_result_file(2, &[]), &["refusal 2", "no words"]);
        assert_has(&of_writing(10), &["refused by 10", "nothing was written"]);
    }

    /// The squares of the first row are lost one by one behind the large one; in front of it they add up to what overflows.
    #[test]
    fn squares_are_summed_ascending_and_in_32_bits() {
        let (large, small) = (f32::from_bits(0x5f7f_ffff), 3.15e15);
        let falling = [large, small, small, small, small];
        let mut values = falling.to_vec();
        values.extend(falling.iter().rev());
        let wide: f64 = falling.iter().map(|value| f64::from(*value).powi(2)).sum();
        assert!(wide > f64::from(f32::MAX));
        assert_eq!(meters_without_sum(&table(5, &values)), ["1"]);
    }

    #[test]
    fn the_least_number_of_splits_is_counted() {
        for (rows, limit, branching, least) in [
            (0, 2, 2, 0),
            (2, 2, 2, 0),
            (3, 2, 2, 1),
            (4_096, 40, 4, 34),
            (9, 2, 5, 1),
            (9, 0, 5, 0),
        ] {
            assert_eq!(least_splits(rows, limit, branching), least);
        }
    }

    #[test]
    fn a_row_is_told_by_both_lengths_and_its_bad_reading() {
        let centroids = table(2, &[1.0, 2.0, f32::INFINITY, 3.0]);
        let call = |dim, row| Nearest {
            dim,
            row,
            centroids: &centroids,
            fewest: 1,
        };
        assert_has(&of_row(1, call(65, &[1.0])), &["--dim is 65", "1 to 64"]);
        assert_has(&of_row(2, call(1, &[1.0])), &["1 readings", "centroid 2"]);
        let told = of_row(5, call(2, &[f32::INFINITY, 1.0]));
        assert_has(
            &told,
            &["centroid 1", "reading 1", "inf here and inf there"],
        );
        assert_has(
            &of_row(5, call(2, &[1.0, f32::NAN])),
            &["centroid 0", "reading 2", "NaN"],
        );
    }
}
