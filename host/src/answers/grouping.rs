//! Grouping through the exported function: 4,096 meters of 64 readings, with no file in between.

use engine::exported::{group, GroupNumbers, GroupWork, Mode};

use super::cells::Cells;
use super::draws::Draws;
use super::settings::Settings;
use crate::reading::table::Table;

/// What the engine gives of a grouping.
#[derive(Clone, Debug, PartialEq)]
pub struct Grouping {
    pub cells: Cells,
    pub splits: u32,
    /// Rows that matched no part of a split, summed over the splits: a meter may count several times.
    pub unplaced: u32,
}

/// The families of a table's rows, by distance or, `spherical`, by shape; or the refusal's number.
pub fn families(
    mode: Mode,
    spherical: bool,
    table: &Table,
    settings: Settings,
    draws: Draws,
) -> Result<Grouping, u32> {
    let (rows, dim) = (table.rows, table.readings);
    let numbers = GroupNumbers {
        rows: rows as u32,
        dim: dim as u32,
        limit: settings.limit,
        branching: settings.branching,
        weight: settings.weight,
        budget: settings.budget,
        spherical,
    };
    let mut cells = Cells::new(rows, dim);
    let told = group(
        mode,
        numbers,
        &draws.numbers(),
        &table.values,
        &mut cells.order,
        &mut cells.ends,
        &mut cells.means,
        &mut GroupWork::new(rows, dim, 0.0),
    );
    if told.number != 0 {
        return Err(told.number);
    }
    cells.groups = told.groups as usize;
    Ok(Grouping {
        cells,
        splits: told.splits,
        unplaced: told.unplaced,
    })
}

#[cfg(test)]
mod tests {
    use super::*;
    use crate::answers::report::Family;
    use crate::reading::table::tests::table;

    fn p1(limit: u32, budget: u32) -> Result<Grouping, u32> {
        let table = table(1, &[0.0, 1.0, 10.0, 11.0]);
        let settings = Settings {
            limit,
            branching: 2,
            weight: 0.0,
            budget,
        };
        let draws = Draws { seed: 1, count: 3 };
        families(Mode::Strict, false, &table, settings, draws)
    }

    #[test]
    fn families_have_their_rows_and_means() {
        let grouping = p1(2, 4).unwrap();
        assert_eq!((grouping.splits, grouping.unplaced), (1, 0));
        let mut families = grouping.cells.families();
        families.sort_by_key(|family| family.rows[0]);
        let family = |rows: [usize; 2], mean: f32| Family {
            rows: rows.to_vec(),
            mean: vec![mean],
        };
        assert_eq!(families, [family([0, 1], 0.5), family([2, 3], 10.5)]);
    }

    #[test]
    fn rows_whose_squares_overflow_are_counted_in_every_split() {
        let settings = Settings {
            limit: 1,
            branching: 2,
            weight: 0.5,
            budget: 9,
        };
        let draws = Draws { seed: 1, count: 3 };
        let table = table(1, &[2e19; 4]);
        let grouping = families(Mode::OldWay, false, &table, settings, draws).unwrap();
        // Balancing alone parts them: four rows, then three of them, then two.
        assert_eq!((grouping.splits, grouping.unplaced), (3, 4 + 3 + 2));
        let strict = families(Mode::Strict, false, &table, settings, draws);
        assert_eq!(strict, Err(9));
    }

    /// Two shapes at three scales: by distance a family has both, by shape each has its own.
    #[test]
    fn gain_only_meters_go_by_their_shape() {
        let table = table(
            2,
            &[0.8, 0.6, 0.6, 0.8, 1.6, 1.2, 1.2, 1.6, 3.2, 2.4, 2.4, 3.2],
        );
        let settings = Settings {
            limit: 3,
            branching: 2,
            weight: 0.0,
            budget: 9,
        };
        let rows = |spherical: bool| {
            let draws = Draws { seed: 1, count: 3 };
            let grouping = families(Mode::Strict, spherical, &table, settings, draws).unwrap();
            let families = grouping.cells.families().into_iter();
            let rows = families.map(|family| family.rows);
            let mut rows: Vec<Vec<usize>> = rows.collect();
            rows.iter_mut().for_each(|rows| rows.sort_unstable());
            rows.sort();
            rows
        };
        assert_eq!(rows(true), [[0, 2, 4], [1, 3, 5]]);
        assert_ne!(rows(false), rows(true));
    }

    #[test]
    fn refusals_come_by_number() {
        assert_eq!(p1(2, 0), Err(7));
        assert_eq!(p1(4_097, 0), Err(1));
    }
}
