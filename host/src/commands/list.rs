//! `families list`: a batch goes through the listing program, and its rows get their serial numbers.

use std::fmt::Write;
use std::path::PathBuf;

use clap::Args;

use super::Done;
use crate::answers::batch_file::{misshapen, Batch};
use crate::answers::digest::{Fit, Tie};
use crate::answers::listing::{Families, Listing};
use crate::answers::{listing_program, refusals};
use crate::failure::Failure;
use crate::options::reading::{asked, source};
use crate::reading::cells::Fault;
use crate::reading::decimal::Words;
use crate::reading::source::Source;
use crate::reading::table::{Rules, Table};
use crate::showing::text::summary;

#[derive(Args, Clone, Debug)]
pub struct List {
    /// The batch file; `-` is standard input
    #[arg(value_name = "BATCH.bin", value_parser = source())]
    file: Source,

    /// The readings that the batch was made from, with serial numbers; else meters are shown by row number
    #[arg(long, value_name = "READINGS.csv", value_parser = source())]
    serials: Option<Source>,

    /// The first column of that file holds serial numbers, be they numbers too
    #[arg(long, requires = "serials")]
    serial_column: bool,

    /// The listing program; else the one that FAMILIES_LISTING names, else `listing` beside this program, else target/bin/listing
    #[arg(long, value_name = "PROGRAM")]
    listing: Option<PathBuf>,
}

impl List {
    pub fn run(&self) -> Result<Done, Failure> {
        let file = self.file.read()?;
        let batch = Batch::from_file(&file);
        let serials = self.serials(batch.as_ref())?;
        let program = listing_program::find(self.listing.as_deref())?;
        let families = match listing_program::run(&program, &file)? {
            Listing::Accepted(families) => families,
            Listing::Refused(number) => {
                let why = why(number, &file, batch, serials);
                return Err(Failure::refused(number, &self.file, why));
            }
        };
        let broken = |what: &str| Failure::system(program.display(), what);
        let batch = batch.ok_or_else(|| broken("accepted a file that has no shape of a batch"))?;
        let rows = batch.rows as usize;
        families.check(rows).map_err(|what| broken(&what))?;
        let name = |row: usize| match &serials {
            Some(table) => table.name(row),
            None => row.to_string(),
        };
        Ok(Done {
            output: text(&families, rows, name).into_bytes(),
            ..Done::default()
        })
    }

    /// The file of serials, where one is named, held against the batch before anything runs.
    fn serials(&self, batch: Option<&Batch>) -> Result<Option<Table>, Failure> {
        let Some(source) = &self.serials else {
            return Ok(None);
        };
        let rules = Rules {
            first_column: asked(self.serial_column, false),
            options: ["--serial-column", "a file with serial numbers"],
            words: Words::NotTaken,
        };
        let table = Table::of(source, rules)?;
        if table.serials.is_none() && table.rows > 0 {
            return Err(Failure::input(source, "no serial numbers in it"));
        }
        if let Some(batch) = batch {
            check_same_rows(&table, batch)
                .and_then(|()| check_tie(&table, batch))
                .map_err(|what| Failure::input(source, what))?;
        }
        Ok(Some(table))
    }
}

/// The serials in their order, by the digest that the batch has; a batch that was made in another way has none.
fn check_tie(table: &Table, batch: &Batch) -> Result<(), String> {
    let Some(tie) = Tie::read(&batch.remark) else {
        return Ok(());
    };
    let serials = table.serials.as_deref().unwrap_or_default();
    match tie.fit(serials, batch.settings, batch.draws.len()) {
        Fit::Same | Fit::WithoutSerials => Ok(()),
        Fit::Other => Err(format!(
            "the batch was made with other serial numbers, another order of them, or other settings (its digest is {:016x}); list it with the very file that it was made from, or make it anew",
            tie.digest
        )),
    }
}

/// The readings bit by bit, not only their number: a serial must not go to another meter's family.
fn check_same_rows(table: &Table, batch: &Batch) -> Result<(), String> {
    let (rows, dim) = (batch.rows as usize, batch.dim as usize);
    if table.rows != rows {
        return Err(format!("{} rows; the batch has {rows}", table.rows));
    }
    if rows > 0 && table.readings != dim {
        let readings = table.readings;
        return Err(format!("{readings} readings in a row; the batch has {dim}"));
    }
    let pairs = table.values.iter().zip(&batch.values);
    match pairs
        .enumerate()
        .find(|(_, (mine, its))| mine.to_bits() != its.to_bits())
    {
        None => Ok(()),
        Some((at, (mine, its))) => {
            let what = format!("{mine} where the batch has {its}");
            let fault: Fault = table.fault(at / dim, at % dim, what);
            Err(fault.to_string())
        }
    }
}

/// A refusal in the batch's own numbers.
fn why(number: u32, file: &[u8], batch: Option<Batch>, serials: Option<Table>) -> String {
    let Some(batch) = batch else {
        return format!("no batch file: {}", misshapen(file));
    };
    let rows = Table {
        rows: batch.rows as usize,
        readings: batch.dim as usize,
        values: batch.values,
        serials: serials.and_then(|table| table.serials),
        names: None,
    };
    refusals::of_grouping(number, &rows, batch.settings, batch.draws.len())
}

fn text(families: &Families, rows: usize, name: impl Fn(usize) -> String) -> String {
    let mut text = summary(families.groups.len(), rows, Some(families.splits));
    for (number, group) in families.groups.iter().enumerate() {
        let names: Vec<String> = group.iter().map(|&row| name(row)).collect();
        let size = group.len();
        // Writing to a string does not fail.
        let _ = writeln!(text, "family {number}, {size} meters: {}", names.join(" "));
    }
    text
}

#[cfg(test)]
mod tests {
    use super::*;
    use crate::answers::draws::Draws;
    use crate::answers::settings::Settings;
    use crate::reading::column::Asked;

    fn table(text: &str) -> Table {
        let rules = Rules {
            first_column: Asked::Nothing,
            options: ["", ""],
            words: Words::NotTaken,
        };
        Table::read(text.as_bytes(), rules).unwrap()
    }

    fn batch(rows: u32, dim: u32, values: &[f32]) -> Batch {
        Batch {
            remark: vec![],
            rows,
            dim,
            values: values.to_vec(),
            draws: vec![0],
            settings: Settings {
                limit: 2,
                branching: 2,
                weight: 0.0,
                budget: 4,
            },
        }
    }

    #[test]
    fn the_same_rows_are_known_by_their_bits() {
        let table = table("serial,low,high\nA,1,2\nB,0,4\n");
        let same = batch(2, 2, &[1.0, 2.0, 0.0, 4.0]);
        assert_eq!(check_same_rows(&table, &same), Ok(()));
        let signed = batch(2, 2, &[1.0, 2.0, -0.0, 4.0]);
        let told = check_same_rows(&table, &signed).unwrap_err();
        assert!(told.starts_with("line 3 column 2: "), "{told}");
    }

    #[test]
    fn another_number_of_rows_or_readings_is_told() {
        let table = table("serial,low,high\nA,1,2\n");
        let more = batch(2, 2, &[1.0, 2.0, 1.0, 2.0]);
        assert!(check_same_rows(&table, &more).unwrap_err().contains("rows"));
        let narrow = batch(1, 1, &[1.0]);
        let told = check_same_rows(&table, &narrow).unwrap_err();
        assert!(told.contains("readings"), "{told}");
    }

    #[test]
    fn families_are_printed_one_to_a_line() {
        let families = Families {
            splits: 1,
            groups: vec![vec![2, 3], vec![0]],
        };
        assert_eq!(
            text(&families, 3, |row| format!("M{row}")),
            "2 families, 3 meters, 1 splits\nfamily 0, 2 meters: M2 M3\nfamily 1, 1 meters: M0\n"
        );
    }

    #[test]
    fn a_batch_knows_its_serials() {
        let table = table("serial,low\nA,1\nB,1\n");
        let mut batch = batch(2, 1, &[1.0, 1.0]);
        assert_eq!(check_tie(&table, &batch), Ok(()));
        let tied = |serials: &[&str]| {
            let serials: Vec<String> = serials.iter().map(|s| s.to_string()).collect();
            let draws = Draws { seed: 5, count: 1 };
            Tie::new(Some(&serials), batch.settings, draws).line()
        };
        let (same, swapped) = (tied(&["A", "B"]), tied(&["B", "A"]));
        batch.remark = same.into_bytes();
        assert_eq!(check_tie(&table, &batch), Ok(()));
        batch.remark = swapped.into_bytes();
        let told = check_tie(&table, &batch).unwrap_err();
        assert!(told.contains("other serial numbers"), "{told}");
    }
}
