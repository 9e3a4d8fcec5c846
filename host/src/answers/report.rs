//! Families with everything that a person needs beside them: whose rows they are, where each meter stands, and how they came about.

use crate::answers::draws::Draws;
use crate::answers::settings::Settings;
use crate::reading::table::Table;

/// A family: its rows in the order listed, counted from 0, and the mean over exactly these.
#[derive(Clone, Debug, PartialEq)]
pub struct Family {
    pub rows: Vec<usize>,
    pub mean: Vec<f32>,
}

/// How families came about.
#[derive(Clone, Debug)]
pub enum Origin {
    Grouped(Grouped),
    /// Read from a result file, which tells nothing of the grouping; the serial numbers are of the file named here, where there is one.
    Read {
        serials: Option<String>,
    },
}

/// A grouping beside its families: how it was asked for, and what it took.
#[derive(Clone, Copy, Debug)]
pub struct Grouped {
    pub settings: Settings,
    pub draws: Draws,
    /// Whether unplaced rows were asked for, and not refused.
    pub allow_unplaced: bool,
    /// Whether the families go by shape.
    pub spherical: bool,
    pub splits: u32,
    /// Rows that matched no part of a split, summed over the splits: a meter may count several times.
    pub unplaced: u32,
}

/// What that sum is called wherever it is shown.
pub const UNPLACED: &str = "unplaced rows, summed over splits";

/// A setting and what it says of the families, shown only where it is on.
pub const SPHERICAL: (&str, &str) = ("spherical", "families by shape");

/// Where a meter stands on the bench; both are counted from 1, as trays and their places are.
#[derive(Clone, Copy, Debug, PartialEq, Eq)]
pub struct Place {
    pub tray: usize,
    pub place: usize,
}

#[derive(Clone, Debug)]
pub struct Report {
    /// The file that the families came from, as it was named: of readings that were grouped, or a result file.
    pub source: String,
    pub origin: Origin,
    pub table: Table,
    /// Meters to a tray.
    pub tray: usize,
    pub families: Vec<Family>,
    pub warnings: Vec<String>,
}

impl Report {
    /// Rows come tray after tray.
    pub fn place(&self, row: usize) -> Place {
        Place {
            tray: row / self.tray + 1,
            place: row % self.tray + 1,
        }
    }

    pub fn meters(&self) -> usize {
        self.table.rows
    }

    /// Nothing where the families come from a result file.
    pub fn grouped(&self) -> Option<&Grouped> {
        match &self.origin {
            Origin::Grouped(grouped) => Some(grouped),
            Origin::Read { .. } => None,
        }
    }

    /// The most meters that a family was allowed, where that is known.
    pub fn limit(&self) -> Option<usize> {
        let grouped = self.grouped()?;
        Some(grouped.settings.limit as usize)
    }
}

#[cfg(test)]
pub mod tests {
    use super::*;

    /// Three meters of two readings in two families, on trays of two.
    pub fn report() -> Report {
        let family = |rows: &[usize], mean: [f32; 2]| Family {
            rows: rows.to_vec(),
            mean: mean.to_vec(),
        };
        Report {
            source: "r.csv".into(),
            origin: Origin::Grouped(Grouped {
                settings: Settings {
                    limit: 2,
                    branching: 2,
                    weight: 0.25,
                    budget: 4,
                },
                draws: Draws {
                    seed: u64::MAX,
                    count: 3,
                },
                allow_unplaced: false,
                spherical: false,
                splits: 1,
                unplaced: 0,
            }),
            table: Table {
                rows: 3,
                readings: 2,
                values: vec![1.0, 0.2, -0.25, 3.0, 0.0, 0.0],
                serials: Some(["A 1", "B", "C"].map(String::from).to_vec()),
                names: Some(["low", "high"].map(String::from).to_vec()),
            },
            tray: 2,
            families: vec![family(&[2, 0], [0.5, 0.1]), family(&[1], [-0.25, 3.0])],
            warnings: vec!["look out".into()],
        }
    }

    /// The same families from a result file alone.
    pub fn of_result_file() -> Report {
        Report {
            source: "r.bin".into(),
            origin: Origin::Read { serials: None },
            table: Table::unread(3, 2),
            ..report()
        }
    }

    /// The grouping of a report that has one, to change.
    pub fn grouped(report: &mut Report) -> &mut Grouped {
        match &mut report.origin {
            Origin::Grouped(grouped) => grouped,
            Origin::Read { .. } => panic!("no grouping"),
        }
    }

    #[test]
    fn trays_and_places_count_from_one() {
        let places = [0, 1, 2].map(|row| report().place(row));
        let of = |tray, place| Place { tray, place };
        assert_eq!(places, [of(1, 1), of(1, 2), of(2, 1)]);
    }

    #[test]
    fn a_limit_is_known_of_a_grouping_alone() {
        assert_eq!(report().limit(), Some(2));
        assert_eq!(of_result_file().limit(), None);
    }
}
