//! Rows that are held against given centroids, and the lines that come of it.

use clap::Args;
use engine::exported::Placement;

use super::grouping::warned;
use super::reading::{asked, source, ReadingOptions};
use crate::answers::nearest::Centroids;
use crate::answers::refusals::{self, Nearest};
use crate::answers::warnings;
use crate::failure::Failure;
use crate::reading::decimal::Words;
use crate::reading::source::Source;
use crate::reading::table::{Rules, Table};

#[derive(Args, Clone, Debug)]
pub struct NearestOptions {
    /// Rows, one meter to a line; `-` is standard input
    #[arg(value_name = "ROWS.csv", value_parser = source())]
    file: Source,

    /// Centroids, one to a line; where its first column holds names, they are printed
    #[arg(long, value_name = "FILE.csv", value_parser = source())]
    centroids: Source,

    /// Readings to a row; as many as the rows have where it is not given
    #[arg(long, value_name = "N")]
    dim: Option<u32>,

    #[command(flatten)]
    reading: ReadingOptions,

    /// The first column of the centroids holds names, be they numbers too
    #[arg(long, conflicts_with = "no_centroid_names")]
    centroid_names: bool,

    /// The first column of the centroids holds readings, be they whole numbers too
    #[arg(long)]
    no_centroid_names: bool,

    /// nan, inf and -inf are readings in both files
    #[arg(long)]
    not_finite: bool,

    /// Exit by 3 where readings are likely to be labelled badly, which is a warning else
    #[arg(long)]
    fail_on_warning: bool,
}

/// Both files, read.
pub struct Given {
    source: Source,
    rows: Table,
    centroid_table: Table,
    pub centroids: Centroids,
    pub dim: u32,
}

impl NearestOptions {
    pub fn read(&self) -> Result<Given, Failure> {
        let words = match self.not_finite {
            true => Words::Taken,
            false => Words::NotTaken,
        };
        let rows = Table::of(&self.file, self.reading.rules(words))?;
        let rules = Rules {
            first_column: asked(self.centroid_names, self.no_centroid_names),
            options: ["--centroid-names", "--no-centroid-names"],
            words,
        };
        let centroid_table = Table::of(&self.centroids, rules)?;
        Ok(Given {
            dim: self.dim.unwrap_or(rows.readings as u32),
            centroids: Centroids::new(centroid_table.rows as u32, &centroid_table.values),
            source: self.file.clone(),
            rows,
            centroid_table,
        })
    }

    /// Of rows whose labels go by the score; lines for standard error.
    pub fn warned(&self, given: &Given) -> Result<Vec<String>, Failure> {
        let warnings = warnings::of_centroids(&given.rows, &given.centroid_table);
        warned(&given.source, &warnings, self.fail_on_warning)
    }
}

impl Given {
    /// A line for each row: its name, and the nearest centroid with the distance, or that there is none.
    pub fn placements(&self) -> Result<String, Failure> {
        // Nothing is asked of no rows, which may tell no number of readings.
        if self.rows.rows == 0 {
            return Ok(String::new());
        }
        let rows = self.rows.rows as u32;
        // Rows are all of one length, so that where one is refused all are, the first of them too.
        let placements = self
            .centroids
            .place(self.dim, rows, &self.rows.values)
            .map_err(|number| self.refused(number, 0, 1))?;
        let line = |(row, placement): (usize, &Placement)| {
            let found = match placement {
                Placement::Placed { label, distance } => {
                    format!("{} {distance}", self.centroid(*label))
                }
                Placement::Unplaced => " unplaced".to_string(),
            };
            format!("{}:{found}\n", self.rows.name(row))
        };
        Ok(placements.iter().enumerate().map(line).collect())
    }

    /// A line for each row: its name, and each centroid with its number and name. Nothing is printed where one row is refused: half an
    /// answer could be taken for a whole one.
    pub fn each_row(
        &self,
        fewest: i64,
        answer: impl Fn(&[f32]) -> Result<Vec<u16>, u32>,
    ) -> Result<String, Failure> {
        let mut text = String::new();
        for row in 0..self.rows.rows {
            let numbers =
                answer(self.rows.row(row)).map_err(|number| self.refused(number, row, fewest))?;
            text.push_str(&self.rows.name(row));
            text.push(':');
            for number in numbers {
                text.push_str(&self.centroid(number));
            }
            text.push('\n');
        }
        Ok(text)
    }

    fn refused(&self, number: u32, row: usize, fewest: i64) -> Failure {
        let call = Nearest {
            dim: self.dim as usize,
            row: self.rows.row(row),
            centroids: &self.centroid_table,
            fewest,
        };
        let name = self.rows.name(row);
        let why = refusals::of_row(number, call);
        Failure::refused(number, format!("{}: {name}", self.source), why)
    }

    fn centroid(&self, number: u16) -> String {
        match self.centroid_table.serials {
            Some(_) => format!(
                " {number} {}",
                self.centroid_table.name(usize::from(number))
            ),
            None => format!(" {number}"),
        }
    }
}
