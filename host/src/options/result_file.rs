//! A result file and the readings beside it, where they are named: the report that comes of both.

use super::grouping::warned;
use crate::answers::report::{Origin, Report};
use crate::answers::{refusals, result_file, warnings};
use crate::failure::Failure;
use crate::reading::source::Source;
use crate::reading::table::{Rules, Table};

/// What a command asks of a result file.
pub struct ResultAsked<'a> {
    pub file: &'a Source,
    /// The readings that the file was made from.
    pub serials: Option<&'a Source>,
    pub rules: Rules,
    pub tray: usize,
    pub fail_on_warning: bool,
}

impl ResultAsked<'_> {
    /// The report, and lines for standard error.
    pub fn report(&self) -> Result<(Report, Vec<String>), Failure> {
        // No valid file is longer, so what is cut off behind that byte is refused all the same.
        let file = self.file.read_up_to(result_file::MAX_FILE_BYTES + 1)?;
        let cells = result_file::read(&file).map_err(|number| {
            let why = refusals::of_result_file(number, &file);
            Failure::refused(number, self.file, why)
        })?;
        let mut report = Report {
            source: self.file.to_string(),
            origin: Origin::Read {
                serials: self.serials.map(Source::to_string),
            },
            table: Table::unread(cells.rows(), cells.dim),
            tray: self.tray,
            families: cells.families(),
            warnings: Vec::new(),
        };
        let mut notes = Vec::new();
        if let Some(source) = self.serials {
            let table = Table::of(source, self.rules)?;
            check_same_shape(&table, &report.table).map_err(|what| Failure::input(source, what))?;
            report.warnings = warnings::of_means(&table, &report.families);
            notes.push(format!("{source}: {}", table.told()));
            notes.extend(warned(source, &report.warnings, self.fail_on_warning)?);
            report.table = table;
        }
        Ok((report, notes))
    }
}

/// The file has no serials, so numbers are all that can be held against each other before the means.
fn check_same_shape(table: &Table, file: &Table) -> Result<(), String> {
    let pairs = [
        (table.rows, file.rows, "rows"),
        (table.readings, file.readings, "readings in a row"),
    ];
    match pairs.iter().find(|(mine, its, _)| mine != its) {
        None => Ok(()),
        Some((mine, its, what)) => Err(format!("{mine} {what}; the result file has {its}")),
    }
}

#[cfg(test)]
mod tests {
    use super::*;

    #[test]
    fn another_number_of_rows_or_readings_is_told_by_both() {
        let of = Table::unread;
        assert_eq!(check_same_shape(&of(3, 2), &of(3, 2)), Ok(()));
        let rows = "4 rows; the result file has 3";
        assert_eq!(check_same_shape(&of(4, 1), &of(3, 2)), Err(rows.into()));
        let readings = "1 readings in a row; the result file has 2";
        assert_eq!(check_same_shape(&of(0, 1), &of(0, 2)), Err(readings.into()));
    }
}
